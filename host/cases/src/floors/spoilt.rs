//! Clear floors with something in them that breaks a limit, or several.

use super::drawn::{self, Wanted};
use super::{Described, LAYOUTS};
use crate::draw::Draw;
use floor::{Floor, NO_BEAM};
use reference::verdict::judge;

type Spoil = fn(&mut Draw, &mut Floor);

const WAYS: [(&str, Spoil); 6] = [
    ("loads", spoil_loads),
    ("an x span", spoil_x_span),
    ("a y span", spoil_y_span),
    ("an offset", spoil_offset),
    ("a beam", spoil_beam),
    ("the slab", spoil_slab),
];

fn spoil_loads(draw: &mut Draw, floor: &mut Floor) {
    floor.dead = draw.between(1_000, 24_999);
    floor.live = draw.between(2 * floor.dead + 1, 50_000);
}

/// Anywhere from the shortest that the column allows.
fn any_span(draw: &mut Draw, column: u32) -> u32 {
    20 * draw.between((2 * column).div_ceil(20).max(50), 600)
}

fn spoil_x_span(draw: &mut Draw, floor: &mut Floor) {
    let bay = draw.between(0, floor.x_spans.len() - 1);
    floor.x_spans[bay] = any_span(draw, floor.cx);
}

fn spoil_y_span(draw: &mut Draw, floor: &mut Floor) {
    let bay = draw.between(0, floor.y_spans.len() - 1);
    floor.y_spans[bay] = any_span(draw, floor.cy);
}

fn spoil_offset(draw: &mut Draw, floor: &mut Floor) {
    let column = draw.between(0, floor.offsets.len() - 1);
    floor.offsets[column] = (draw.between(0, 12_000), draw.between(0, 12_000));
}

/// The widest and deepest on a line that has a beam.
fn spoil_beam(draw: &mut Draw, floor: &mut Floor) {
    let line = draw.between(0, floor.y_lines.len() - 1);
    if floor.y_lines[line] != NO_BEAM {
        floor.y_lines[line] = (1_000, 1_500);
    }
}

fn spoil_slab(draw: &mut Draw, floor: &mut Floor) {
    floor.t = draw.between(90, floor.t);
}

/// So many of the ways, one after another, until the floor is broken though not refused.
fn spoilt(draw: &mut Draw, floor: &Floor, ways: usize) -> (String, Floor) {
    loop {
        let mut spoilt = floor.clone();
        let mut words = Vec::new();
        for _ in 0..ways {
            let (name, spoil) = draw.one_of(&WAYS);
            spoil(draw, &mut spoilt);
            words.push(name);
        }
        let (refused, verdict) = judge(&spoilt.bytes());
        if refused == 0 && verdict != 0 {
            return (words.join(", "), spoilt);
        }
    }
}

pub fn floors() -> Vec<Described> {
    let mut draw = Draw::starting_at(6);
    let mut floors = Vec::new();
    for number in 0..36 {
        let (layout, words) = LAYOUTS[number % 3];
        let wanted = Wanted {
            nx: draw.between(3, 7),
            ny: draw.between(3, 7),
            layout,
            sides: draw.one_of(&[0, 1, 32, 70, 170]),
        };
        let floor = drawn::clear(&mut draw, wanted);
        let (ways, floor) = spoilt(&mut draw, &floor, 1 + number / 12);
        floors.push(Described::floor(
            format!("spoilt {number}, {words}: {ways}"),
            &floor,
        ));
    }
    floors.push(Described::floor("all seven broken", &all_seven()));
    floors
}

/// 12,000 is more than 2·5,000, and 3·(12,000 − 6,000) more than 12,000; 10·501 is more than 5,000;
/// the beams differ a thousandfold; 11,800 by 4,800 asks for more than 90.
fn all_seven() -> Floor {
    let mut floor = Floor::clear(2, 1);
    floor.t = 90;
    (floor.cx, floor.cy) = (200, 200);
    (floor.dead, floor.live) = (1_000, 2_001);
    floor.x_spans = vec![12_000, 6_000];
    floor.y_spans = vec![5_000];
    floor.x_lines = vec![(150, 91); 2];
    floor.y_lines = vec![(1_000, 1_500); 3];
    floor.offsets[5] = (0, 501);
    floor
}
