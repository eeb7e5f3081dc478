//! The operations that are timed.

mod changes;
mod clear;
mod openings;
mod places;
mod queries;
mod schedules;

pub use queries::steel;

use crate::product::{Answer, Query};
use crate::size::Size;
use floor::Floor;

pub enum Work {
    Open,
    /// Two changes by turns, each of which undoes the other.
    Turns([Vec<u8>; 2]),
    /// One change again and again, the floor's own record put back before each.
    Again {
        change: Vec<u8>,
        held: Vec<u8>,
        place: usize,
    },
    Panel(u64, u64),
    Clear,
    /// On a slice of so many numbers.
    Places(usize),
    /// On a buffer of so many bytes.
    Schedule(usize),
    Steel(Query),
}

pub struct Operation {
    pub name: &'static str,
    pub floor: Vec<u8>,
    pub work: Work,
    /// What every call answers.
    pub answer: Answer,
    /// Records of the table that a call writes.
    pub writes: usize,
}

/// The same operations, in the same order, at every size.
pub fn at(size: Size) -> Vec<Operation> {
    [
        openings::at(size),
        changes::clear(size),
        changes::others(size),
        queries::panels(size),
        clear::at(size),
        places::at(size),
        schedules::at(size),
    ]
    .into_iter()
    .flatten()
    .collect()
}

/// The floor with a live load just past limit 16.
fn overloaded(floor: &Floor) -> Floor {
    Floor {
        live: 2 * floor.dead + 1,
        ..floor.clone()
    }
}

/// The floor with a value out of range in its last record, the last column's offset.
fn out_of_range(floor: &Floor) -> Floor {
    let mut floor = floor.clone();
    floor.offsets.last_mut().expect("a column").1 = 12_001;
    floor
}
