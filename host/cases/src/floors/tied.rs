//! Clear floors with a support whose two faces have the same total and other parts: by the rounding of
//! Mo, 70·Mo of an end span is 65·Mo of the span beside it.

use super::drawn::any_sides;
use super::Described;
use crate::draw::Draw;
use floor::Floor;
use reference::refusals::SUCCESS;
use reference::verdict::judge;

struct Tie {
    end_span: u32,
    inner_span: u32,
    /// Of all spans across, so that it is W of the lines inside.
    across: u32,
    dead: u32,
    live: u32,
}

const fn tie(end_span: u32, inner_span: u32, across: u32, dead: u32, live: u32) -> Tie {
    Tie {
        end_span,
        inner_span,
        across,
        dead,
        live,
    }
}

/// With columns of 400. Mo of the end span and of the one beside it are 13 and 14 times 1,653, 1,506,
/// 1,618, 1,730, 1,618, 1,748 and 1,925.
const TIES: [Tie; 7] = [
    tie(3_580, 3_700, 5_000, 1_500, 1_000),
    tie(3_580, 3_700, 3_200, 2_700, 1_000),
    tie(3_580, 3_700, 3_200, 3_000, 1_000),
    tie(3_580, 3_700, 3_200, 3_300, 1_000),
    tie(4_640, 4_800, 6_000, 1_300, 0),
    tie(4_640, 4_800, 3_200, 1_300, 1_000),
    tie(4_640, 4_800, 3_200, 2_900, 0),
];

impl Tie {
    /// Beams on every line, so that the parts go by the spans' lengths, and columns at both ends of the x
    /// lines, for the 70 percent. The sides across are any.
    fn floor(&self, nx: usize, ny: usize, sides: u32) -> Floor {
        let mut floor = Floor {
            sides: sides / 16 * 16,
            dead: self.dead,
            live: self.live,
            x_spans: vec![self.inner_span; nx],
            y_spans: vec![self.across; ny],
            ..Floor::clear(nx, ny).with_beams_everywhere()
        };
        floor.x_spans[0] = self.end_span;
        floor.x_spans[nx - 1] = self.end_span;
        floor
    }
}

/// The ties are along x or along y.
pub fn floor(draw: &mut Draw) -> Floor {
    let tie = &TIES[draw.between(0, TIES.len() - 1)];
    let floor = loop {
        let (nx, ny) = (draw.between(3, 5), draw.between(3, 5));
        let mut floor = tie.floor(nx, ny, any_sides(draw));
        for (width, depth) in floor.x_lines.iter_mut().chain(&mut floor.y_lines) {
            *width = draw.between(250, 400);
            *depth = draw.between(500, 700);
        }
        if judge(&floor.bytes()) == (SUCCESS, 0) {
            break floor;
        }
    };
    match draw.percent(50) {
        true => floor.transposed(),
        false => floor,
    }
}

pub fn floors() -> Vec<Described> {
    let mut floors = Vec::new();
    for (number, tie) in TIES.iter().enumerate() {
        let floor = tie.floor(3, 4, 0);
        let words = format!(
            "tied {number}, spans {} and {}",
            tie.end_span, tie.inner_span
        );
        floors.push(Described::floor(&words, &floor));
        floors.push(Described::floor(
            format!("{words}, across"),
            &floor.transposed(),
        ));
    }
    floors
}
