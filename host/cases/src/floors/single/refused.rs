//! Floors that break a limit in one place and are refused besides: their number is what they get.

use super::{all, Single};
use crate::floors::Described;
use floor::{last_index, record, value, with, Field};

/// A refusal, and what is done to a floor for it.
type Fault = (u128, fn(&[u8]) -> Vec<u8>);

const FAULTS: [Fault; 7] = [
    (1, |floor| [floor, &[0]].concat()),
    (2, |floor| with(floor, 1, 0, Field::C, 501)),
    (3, |floor| [floor, &record(9, 0, [0, 0, 0])].concat()),
    (4, |floor| with(floor, 9, last_index(floor, 9), Field::C, 1)),
    (5, |floor| {
        with(floor, 9, last_index(floor, 9), Field::A, 12_001)
    }),
    (6, wide_column),
    (7, another_layout),
];

fn wide_column(floor: &[u8]) -> Vec<u8> {
    let short = with(floor, 6, last_index(floor, 6), Field::A, 1_000);
    with(&short, 4, 0, Field::B, 510)
}

/// A beam is taken away, or put where there is none.
fn another_layout(floor: &[u8]) -> Vec<u8> {
    let last = last_index(floor, 8);
    let (width, depth) = match value(floor, 8, last, Field::A) {
        0 => (300, 600),
        _ => (0, 0),
    };
    let floor = with(floor, 8, last, Field::A, width);
    with(&floor, 8, last, Field::B, depth)
}

/// Of each limit the first floor, with every fault.
pub fn refused() -> Vec<(u128, Described)> {
    let singles = all();
    let mut refused = Vec::new();
    for limit in [1, 2, 4, 8, 16, 32, 64] {
        let first = singles.iter().find(|single| single.limit == limit);
        let Single { words, past, .. } = first.expect("a floor");
        for (number, fault) in FAULTS {
            let words = format!("refused {number} and past limit {limit}, {words}");
            let bytes = fault(&past.bytes());
            refused.push((number, Described::bytes(words, bytes)));
        }
    }
    refused
}
