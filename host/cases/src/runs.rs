//! Runs: a floor with a lent table and a governing slice, opened or not, then changed again and again.

pub mod changes;
mod clear;
mod exact;
mod quiet;
mod refused;
mod small;
pub mod tables;
pub mod ties;
mod weak;

use reference::{held, opening};

#[derive(Clone, Debug)]
pub struct Run {
    pub description: String,
    /// Whether the floor is opened with table and slice before it is changed.
    pub opens: bool,
    pub floor: Vec<u8>,
    pub table: Vec<u32>,
    pub governing: Vec<u32>,
    pub changes: Vec<Vec<u8>>,
}

/// The runs to hold another program against.
pub fn all() -> Vec<Run> {
    [
        weak::runs(),
        clear::runs(),
        quiet::runs(),
        ties::runs(),
        exact::runs(),
        small::runs(),
        refused::runs(),
    ]
    .concat()
}

/// What a run leaves.
#[derive(Clone, Debug, PartialEq, Eq)]
pub struct Played {
    /// Refusal and verdict of the opening.
    pub opening: Option<(u128, u128)>,
    /// Refusal and verdict of each change.
    pub changes: Vec<(u128, u128)>,
    pub floor: Vec<u8>,
    pub table: Vec<u32>,
    pub governing: Vec<u32>,
}

pub fn play(run: &Run) -> Played {
    let (mut floor, mut table) = (run.floor.clone(), run.table.clone());
    let mut governing = run.governing.clone();
    let opening = run
        .opens
        .then(|| opening::open(&floor, &mut table, &mut governing));
    let changes = run.changes.iter();
    let changes =
        changes.map(|change| held::change(&mut floor, &mut table, &mut governing, change));
    Played {
        opening,
        changes: changes.collect(),
        floor,
        table,
        governing,
    }
}
