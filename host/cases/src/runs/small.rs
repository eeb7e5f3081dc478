//! "nx or ny below 3": whatever changes, table and slice are all zeros.

use super::changes::{changes, Changing};
use super::tables::{governing, table, Held};
use super::Run;
use crate::draw::Draw;
use crate::floors::drawn::{self, Wanted};
use crate::floors::LAYOUTS;

const SIZES: [(usize, usize); 7] = [(1, 1), (1, 2), (2, 1), (2, 2), (2, 3), (3, 2), (12, 2)];

pub fn runs() -> Vec<Run> {
    let (mut draw, mut beside) = (Draw::starting_at(14), Draw::starting_at(24));
    let mut runs = Vec::new();
    for (number, (nx, ny)) in SIZES.into_iter().enumerate() {
        let (layout, words) = LAYOUTS[number % 3];
        let wanted = Wanted {
            nx,
            ny,
            layout,
            sides: draw.one_of(&[0, 1, 32, 70, 170]),
        };
        let floor = drawn::floor(&mut draw, wanted).bytes();
        let table = table(&mut draw, &floor, Held::AllWrong, 3);
        runs.push(Run {
            description: format!("small {nx}x{ny}, {words}"),
            opens: number % 2 == 0,
            governing: governing(&mut beside, &floor, &table, Held::AllWrong, 4),
            table,
            changes: changes(&mut draw, Changing::of(&floor), 10),
            floor,
        });
    }
    runs
}
