//! Long runs from clear floors, which break limits and mend them.

use super::changes::{changes, Changing};
use super::tables::{governing, table, HELD};
use super::Run;
use crate::draw::Draw;
use crate::floors::drawn::{self, any_sides, Wanted};
use crate::floors::LAYOUTS;
use floor::Floor;
use reference::layout::Layout;
use reference::verdict::judge;

/// Bays: most of them few, each several times.
const SIZES: [(usize, usize); 18] = [
    (3, 3),
    (3, 4),
    (4, 3),
    (3, 3),
    (4, 4),
    (5, 3),
    (3, 5),
    (5, 4),
    (3, 3),
    (6, 4),
    (4, 6),
    (3, 7),
    (5, 5),
    (8, 3),
    (3, 3),
    (4, 9),
    (6, 6),
    (7, 5),
];

/// Three of a kind, one for each layout.
const LARGE: [(usize, usize); 9] = [
    (12, 12),
    (12, 12),
    (12, 12),
    (3, 12),
    (12, 3),
    (10, 5),
    (9, 8),
    (11, 12),
    (12, 10),
];

/// A clear floor with any sides, its slab often such that there is room for longer spans.
pub fn floor(draw: &mut Draw, nx: usize, ny: usize, layout: Layout) -> Vec<u8> {
    loop {
        let wanted = Wanted {
            nx,
            ny,
            layout,
            sides: any_sides(draw),
        };
        let floor = drawn::clear(draw, wanted);
        let t = floor.t * draw.between(100, 125) / 100;
        let thicker = Floor { t, ..floor }.bytes();
        if judge(&thicker) == (0, 0) {
            return thicker;
        }
    }
}

pub fn runs() -> Vec<Run> {
    let (mut draw, mut beside) = (Draw::starting_at(11), Draw::starting_at(21));
    let sizes = SIZES.repeat(6).into_iter().chain(LARGE);
    let mut runs = Vec::new();
    for (number, (nx, ny)) in sizes.enumerate() {
        let (layout, words) = LAYOUTS[number % 3];
        let (held, held_beside) = (HELD[number % 4], HELD[number / 4 % 4]);
        let opens = number % 5 < 2;
        let tail = draw.between(0, 40);
        let count = draw.between(20, 40);
        let floor = floor(&mut draw, nx, ny, layout);
        let table = table(&mut draw, &floor, held, tail);
        runs.push(Run {
            description: format!(
                "long {number}, {nx}x{ny}, {words}, {held:?} and {held_beside:?}, opens {opens}"
            ),
            opens,
            governing: governing(&mut beside, &floor, &table, held_beside, 40 - tail),
            table,
            changes: changes(&mut draw, Changing::of(&floor), count),
            floor,
        });
    }
    runs
}
