//! Floors with every value drawn, so that no value stands for another by chance.

use super::Case;
use crate::draw::Draw;
use crate::floors::drawn::any_sides;
use floor::{record, Floor};

fn floor(draw: &mut Draw) -> Floor {
    let (nx, ny) = (draw.between(1, 3), draw.between(1, 3));
    let (inner, outer) = draw.one_of(&[("0", "0"), ("0", "1"), ("1", "1")]);
    let lines = |bays: usize| format!("{outer}{}{outer}", inner.repeat(bays - 1));
    let mut floor = Floor::good(nx, ny).with_beams(&lines(ny), &lines(nx));
    floor.t = draw.between(90, 500);
    floor.fc = draw.between(20, 60);
    floor.fy = draw.one_of(&[280, 420, 520]);
    floor.dead = draw.between(1_000, 30_000);
    floor.live = draw.between(0, 50_000);
    floor.cx = 10 * draw.between(20, 50);
    floor.cy = 10 * draw.between(20, 50);
    floor.sides = any_sides(draw);
    for span in floor.x_spans.iter_mut().chain(&mut floor.y_spans) {
        *span = 20 * draw.between(50, 600);
    }
    for (width, depth) in floor.x_lines.iter_mut().chain(&mut floor.y_lines) {
        if *width > 0 {
            *width = draw.between(150, 1_000);
            *depth = draw.between(floor.t + 1, 1_500);
        }
    }
    for offset in &mut floor.offsets {
        *offset = (draw.between(0, 12_000), draw.between(0, 12_000));
    }
    floor
}

fn change(draw: &mut Draw) -> Vec<u8> {
    let kind = draw.between(5, 9);
    let a = 20 * draw.between(0, 600);
    match kind {
        5 | 6 => record(kind, draw.between(0, 3), [a, 0, 0]),
        7 | 8 => record(
            kind,
            draw.between(0, 3),
            [a % 1_010, draw.between(0, 1_599), 0],
        ),
        _ => record(kind, draw.between(0, 16), [a, draw.between(0, 12_099), 0]),
    }
}

pub fn cases() -> Vec<Case> {
    let mut draw = Draw::starting_at(8);
    let mut cases = Vec::new();
    for number in 1..=12 {
        let floor = floor(&mut draw).bytes();
        let broken = draw.between(0, floor.len() - 1);
        let mut bytes = floor.clone();
        bytes[broken] ^= 1 << draw.between(0, 7);
        cases.push(Case::change(
            format!("drawn {number}"),
            &floor,
            change(&mut draw),
        ));
        cases.push(Case::floor(format!("drawn floor {number}"), floor));
        cases.push(Case::floor(
            format!("drawn floor {number}, byte {broken} broken"),
            bytes,
        ));
    }
    cases
}
