//! Runs on a table and a slice that are just long enough, one of them or both: no refusal is for what is
//! lent.

use super::changes::{changes, Changing};
use super::clear;
use super::tables::{governing, table, HELD};
use super::Run;
use crate::draw::Draw;
use crate::floors::LAYOUTS;

/// Bays, and how many numbers lie past the table and past the slice.
const SIZES: [((usize, usize), (usize, usize)); 8] = [
    ((3, 3), (0, 0)),
    ((3, 4), (0, 0)),
    ((3, 3), (1, 0)),
    ((4, 3), (0, 1)),
    ((5, 4), (20, 0)),
    ((3, 6), (0, 20)),
    ((12, 3), (0, 0)),
    ((12, 12), (0, 0)),
];

pub fn runs() -> Vec<Run> {
    let mut draw = Draw::starting_at(18);
    let mut runs = Vec::new();
    for (number, ((nx, ny), (tail, tail_beside))) in SIZES.into_iter().enumerate() {
        let (layout, words) = LAYOUTS[number % 3];
        let held = HELD[number % 4];
        let floor = clear::floor(&mut draw, nx, ny, layout);
        let table = table(&mut draw, &floor, held, tail);
        runs.push(Run {
            description: format!(
                "{tail} past the table, {tail_beside} past the slice, {nx}x{ny}, {words}"
            ),
            opens: number % 2 == 0,
            governing: governing(&mut draw, &floor, &table, held, tail_beside),
            table,
            changes: changes(&mut draw, Changing::of(&floor), 8),
            floor,
        });
    }
    runs
}
