//! Floors alone with two faults at once: the lower number has to come out, wherever the faults stand.

use super::Case;
use floor::{with, Field, Floor};
use reference::floor_file::RECORD_BYTES;

pub struct Fault {
    pub refusal: u128,
    pub name: &'static str,
    pub put_into: fn(&[u8]) -> Vec<u8>,
}

/// Faults for `base`, no two in the same field, so that any two can be put in one after the other in
/// the order of this list. The length comes last since it moves records.
pub const FAULTS: [Fault; 9] = [
    Fault {
        refusal: 7,
        name: "7 in x line 0",
        put_into: |floor| with(&with(floor, 7, 0, Field::A, 300), 7, 0, Field::B, 600),
    },
    Fault {
        refusal: 6,
        name: "6 in the last y span",
        put_into: |floor| with(&with(floor, 4, 0, Field::B, 510), 6, 0, Field::A, 1_000),
    },
    Fault {
        refusal: 5,
        name: "5 in the materials",
        put_into: |floor| with(floor, 2, 0, Field::A, 19),
    },
    Fault {
        refusal: 5,
        name: "5 in the last offset",
        put_into: |floor| with(floor, 9, 5, Field::B, 12_001),
    },
    Fault {
        refusal: 4,
        name: "4 in the materials",
        put_into: |floor| with(floor, 2, 0, Field::C, 1),
    },
    Fault {
        refusal: 4,
        name: "4 in the last offset",
        put_into: |floor| with(floor, 9, 5, Field::Index, 6),
    },
    Fault {
        refusal: 3,
        name: "3 by ny 3",
        put_into: |floor| with(floor, 1, 0, Field::B, 3),
    },
    Fault {
        refusal: 2,
        name: "2 by t 89",
        put_into: |floor| with(floor, 1, 0, Field::C, 89),
    },
    Fault {
        refusal: 1,
        name: "1 by a byte more",
        put_into: |floor| [floor, &[0]].concat(),
    },
];

pub fn base() -> Vec<u8> {
    Floor::good(2, 1).bytes()
}

pub fn cases() -> Vec<Case> {
    let mut cases = Vec::new();
    for (position, later) in FAULTS.iter().enumerate() {
        for earlier in &FAULTS[position + 1..] {
            let floor = (earlier.put_into)(&(later.put_into)(&base()));
            let description = format!("fault {} and fault {}", earlier.name, later.name);
            if earlier.refusal != later.refusal {
                cases.push(Case::floor(description, floor));
            }
        }
    }
    let sizes_twice = with(&base(), 9, 5, Field::Kind, 1);
    cases.push(Case::floor("sizes once more in last place", sizes_twice));
    let short = base()[..13 * RECORD_BYTES].to_vec();
    cases.push(Case::floor(
        "13 records and t 89",
        with(&short, 1, 0, Field::C, 89),
    ));
    cases
}
