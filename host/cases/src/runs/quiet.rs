//! Short runs from clear floors on wrong numbers, many of which have to outlive the run: "every other
//! keeps what it held, right or not".

use super::changes::taken::clear_change_of;
use super::changes::{changes, Changing};
use super::clear;
use super::tables::{governing, table, Held};
use super::Run;
use crate::draw::Draw;
use crate::floors::LAYOUTS;
use floor::last_index;

pub fn runs() -> Vec<Run> {
    [single_changes(), several_changes()].concat()
}

/// A single change of the first record of a kind, one inside, the last.
fn single_changes() -> Vec<Run> {
    let (mut draw, mut beside) = (Draw::starting_at(12), Draw::starting_at(22));
    let mut runs = Vec::new();
    for (layout, words) in LAYOUTS {
        for kind in [5, 6, 7, 8, 9] {
            let nx = draw.between(3, 6);
            let ny = draw.between(3, 6);
            let floor = clear::floor(&mut draw, nx, ny, layout);
            let last = last_index(&floor, kind);
            for index in [0, draw.between(1, last - 1), last] {
                let change = clear_change_of(&mut draw, &floor, kind, index);
                let table = table(&mut draw, &floor, Held::AllWrong, 2);
                runs.push(Run {
                    description: format!("kind {kind} index {index}, {nx}x{ny}, {words}"),
                    opens: false,
                    floor: floor.clone(),
                    governing: governing(&mut beside, &floor, &table, Held::AllWrong, 3),
                    table,
                    changes: vec![change],
                });
            }
        }
    }
    runs
}

fn several_changes() -> Vec<Run> {
    let (mut draw, mut beside) = (Draw::starting_at(13), Draw::starting_at(23));
    let mut runs = Vec::new();
    for number in 0..36 {
        let (layout, words) = LAYOUTS[number % 3];
        let most = if number < 6 { 12 } else { 7 };
        let nx = draw.between(3, most);
        let ny = draw.between(3, most);
        let floor = clear::floor(&mut draw, nx, ny, layout);
        let held = draw.one_of(&[Held::SomeWrong, Held::AllWrong]);
        let held_beside = beside.one_of(&[Held::Right, Held::SomeWrong, Held::AllWrong]);
        let count = draw.between(2, 6);
        let table = table(&mut draw, &floor, held, count);
        runs.push(Run {
            description: format!(
                "quiet {number}, {nx}x{ny}, {words}, {held:?} and {held_beside:?}"
            ),
            opens: false,
            governing: governing(&mut beside, &floor, &table, held_beside, count),
            table,
            changes: changes(&mut draw, Changing::quietly(&floor), count),
            floor,
        });
    }
    runs
}
