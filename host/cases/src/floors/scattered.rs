//! Floors broken here and there: of a limit some places are past it, others at it or within it.

use super::drawn::any_sides;
use super::{Described, LAYOUTS};
use crate::draw::Draw;
use crate::places::shorter_adjoining;
use floor::{Floor, NO_BEAM};
use reference::layout::Layout;

/// Bays of the floors that are listed, each in every layout.
const BAYS: [(usize, usize); 6] = [(2, 3), (3, 3), (5, 3), (4, 7), (3, 12), (12, 12)];

pub fn floors() -> Vec<Described> {
    let mut draw = Draw::starting_at(61);
    let mut floors = Vec::new();
    for (nx, ny) in BAYS {
        for (layout, in_words) in LAYOUTS {
            let floor = scattered(&mut draw, (nx, ny), layout);
            let words = format!("broken here and there, {nx}x{ny}, {in_words}");
            floors.push(Described::floor(words, &floor));
        }
    }
    floors
}

/// 2: 3,000 is twice 1,500, 3,040 twice 1,520 and 4,560 twice 2,280. 4: 3,040 is a third less than 4,560, 1,000 than
/// 1,500 and 1,520 than 2,280.
const LONGER: [u32; 5] = [3_000, 3_040, 3_060, 4_560, 4_600];
const SHORTER: [u32; 4] = [1_000, 1_500, 1_520, 2_280];

/// Along x or across.
pub fn scattered(draw: &mut Draw, (nx, ny): (usize, usize), layout: Layout) -> Floor {
    let across = draw.percent(50);
    let (nx, ny) = if across { (ny, nx) } else { (nx, ny) };
    let x_spans = some_of(draw, &LONGER, nx);
    let y_spans = some_of(draw, &SHORTER, ny);
    // 64: 125 is the least for S up to 80000, and 4,400 without beams asks for 147 or, inside, 134.
    let t = draw.one_of(&[90, 110, 124, 125, 133, 134, 140, 146, 147, 160]);
    let floor = Floor {
        t,
        dead: 1_000,
        live: draw.one_of(&[2_000, 2_001]),
        cx: 200,
        cy: 200,
        sides: any_sides(draw),
        // 32: p stays behind q, for X is longer than Y, unless the beams on x lines are the stiffer ones.
        x_lines: beams(draw, ny, layout, (t + 1, t + 400)),
        y_lines: beams(draw, nx, layout, (t + 1, t + 120)),
        offsets: offsets(draw, &x_spans, &y_spans),
        x_spans,
        y_spans,
        ..Floor::good(nx, ny)
    };
    match across {
        true => floor.transposed(),
        false => floor,
    }
}

fn some_of(draw: &mut Draw, spans: &[u32], bays: usize) -> Vec<u32> {
    (0..bays).map(|_| draw.one_of(spans)).collect()
}

/// On the lines beside so many bays, their depth within a range.
fn beams(
    draw: &mut Draw,
    bays: usize,
    layout: Layout,
    (least, most): (u32, u32),
) -> Vec<(u32, u32)> {
    let mut lines = Vec::new();
    for line in 0..=bays {
        let has_beam = match layout {
            Layout::Everywhere => true,
            Layout::OuterLinesOnly => line == 0 || line == bays,
            Layout::NoBeams => false,
        };
        let beam = (draw.between(150, 600), draw.between(least, most));
        lines.push(if has_beam { beam } else { NO_BEAM });
    }
    lines
}

/// 8: a tenth of the shorter span beside the column, a mm more, or none.
fn offsets(draw: &mut Draw, x_spans: &[u32], y_spans: &[u32]) -> Vec<(u32, u32)> {
    let mut offsets = Vec::new();
    for j in 0..=y_spans.len() {
        for i in 0..=x_spans.len() {
            let mut along = |line, spans| {
                let most = shorter_adjoining(line, spans) / 10;
                draw.one_of(&[0, most, most, most + 1])
            };
            offsets.push((along(i, x_spans), along(j, y_spans)));
        }
    }
    offsets
}
