//! Runs in which nothing is ever taken: on tables and slices too short, on refused floors. "Refusals
//! write nothing", so each change is drawn for the floor at the start.

use super::changes::changes_never_stored;
use super::clear;
use super::tables::{any_numbers, governing, table, Held};
use super::Run;
use crate::draw::Draw;
use crate::floors::{self, Described, LAYOUTS};
use floor::Floor;
use reference::refusals::refusal;

pub fn runs() -> Vec<Run> {
    [short_tables(), short_slices(), refused_floors()].concat()
}

/// Bays along y, 3 being those along x, and how many numbers the table and the slice have.
type Short = (usize, usize, usize);

/// 8: "lent table shorter than 16·((ny+1)nx+(nx+1)ny) numbers", which is 384 or 496 here. The slice, which
/// needs 160 or 200, is short too in some of them: 13 is "tried right after 8".
fn short_tables() -> Vec<Run> {
    short(
        15,
        &[
            (3, 0, 160),
            (3, 1, 0),
            (3, 383, 159),
            (3, 368, 163),
            (4, 495, 199),
            (4, 16, 200),
            (4, 480, 5),
            (4, 384, 160),
        ],
    )
}

/// 13: "the slice is too short"
fn short_slices() -> Vec<Run> {
    short(
        17,
        &[
            (3, 384, 0),
            (3, 384, 1),
            (3, 384, 159),
            (3, 390, 155),
            (4, 496, 199),
            (4, 496, 5),
            (4, 500, 195),
            (4, 496, 160),
        ],
    )
}

fn short(seed: u64, lengths: &[Short]) -> Vec<Run> {
    let (mut draw, mut beside) = (Draw::starting_at(seed), Draw::starting_at(seed + 10));
    let mut runs = Vec::new();
    for (number, &(ny, of_table, of_slice)) in lengths.iter().enumerate() {
        let (layout, words) = LAYOUTS[number % 3];
        let floor = clear::floor(&mut draw, 3, ny, layout);
        let mut table = table(&mut draw, &floor, Held::SomeWrong, 0);
        let mut governing = governing(&mut beside, &floor, &table, Held::SomeWrong, 0);
        table.resize(of_table, u32::MAX);
        governing.resize(of_slice, u32::MAX);
        runs.push(Run {
            description: format!("table of {of_table}, slice of {of_slice}, 3x{ny}, {words}"),
            opens: number % 2 == 0,
            table,
            governing,
            changes: changes_never_stored(&mut draw, &floor, 10),
            floor,
        });
    }
    runs
}

/// "A change tries 1 to 7 on the held floor": no change is taken that a good floor would take.
fn refused_floors() -> Vec<Run> {
    let (mut draw, mut beside) = (Draw::starting_at(16), Draw::starting_at(26));
    let good = Floor::clear(3, 3).bytes();
    let mut runs = Vec::new();
    for (number, refused) in two_of_each_refusal().into_iter().enumerate() {
        let numbers = draw.between(0, 600);
        runs.push(Run {
            description: format!("refused, {}", refused.description),
            opens: number % 2 == 0,
            floor: refused.bytes,
            table: any_numbers(&mut draw, numbers),
            governing: any_numbers(&mut beside, numbers / 2),
            changes: changes_never_stored(&mut draw, &good, 6),
        });
    }
    runs
}

fn two_of_each_refusal() -> Vec<Described> {
    let mut found = Vec::new();
    for number in 1..=7 {
        let mut floors = floors::refused::floors();
        floors.retain(|floor| refusal(&floor.bytes) == number);
        floors.truncate(2);
        found.extend(floors);
    }
    found
}
