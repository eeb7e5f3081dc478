//! Openings: clear, broken, refused.

use super::{out_of_range, overloaded, Operation, Work};
use crate::floors::{with_beams, without_beams};
use crate::product::Answer;
use crate::size::Size;
use floor::Floor;

pub fn open(name: &'static str, floor: &Floor, answer: Answer, writes: usize) -> Operation {
    Operation {
        name,
        floor: floor.bytes(),
        work: Work::Open,
        answer,
        writes,
    }
}

pub fn at(size: Size) -> Vec<Operation> {
    let (bare, beams) = (without_beams(size), with_beams(size));
    let late = out_of_range(&beams);
    let all = size.records();
    vec![
        open("open, clear, no beams", &bare, (0, 0), all),
        open("open, clear, beams everywhere", &beams, (0, 0), all),
        open("open, broken", &overloaded(&beams), (0, 16), all),
        open("open, refused 5 by the last record", &late, (5, 255), 0),
    ]
}
