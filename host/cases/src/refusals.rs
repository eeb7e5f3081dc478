//! Floor files and changes at the edges of every refusal. What has to be answered is worked out, never
//! written here.

mod change_refusals;
mod change_values;
mod form;
mod large;
mod layouts;
mod mixed;
mod order;
mod values;

use floor::Field;
use reference::change::change;
use reference::refusals::refusal;

pub struct Case {
    pub description: String,
    pub floor: Vec<u8>,
    /// `None` where the case is a floor alone.
    pub change: Option<Vec<u8>>,
}

impl Case {
    fn floor(description: impl Into<String>, floor: Vec<u8>) -> Case {
        Case {
            description: description.into(),
            floor,
            change: None,
        }
    }

    fn change(description: impl Into<String>, floor: &[u8], change: Vec<u8>) -> Case {
        Case {
            description: format!("change: {}", description.into()),
            floor: floor.to_vec(),
            change: Some(change),
        }
    }

    /// Of the floor alone, or of the change; no table is lent.
    pub fn refusal(&self) -> u128 {
        match &self.change {
            None => refusal(&self.floor),
            Some(bytes) => change(&self.floor, bytes).0,
        }
    }
}

pub fn all() -> Vec<Case> {
    [
        form::cases(),
        values::cases(),
        layouts::cases(),
        order::cases(),
        large::cases(),
        change_refusals::cases(),
        change_values::cases(),
        mixed::cases(),
    ]
    .into_iter()
    .flatten()
    .collect()
}

const KINDS: [(u16, &str); 9] = [
    (1, "sizes"),
    (2, "materials"),
    (3, "loads"),
    (4, "columns"),
    (5, "x span"),
    (6, "y span"),
    (7, "x line beam"),
    (8, "y line beam"),
    (9, "offset"),
];

/// The fields the table of kinds lists, by kind.
pub const LISTED: [(u16, Field, &str); 18] = [
    (1, Field::A, "nx"),
    (1, Field::B, "ny"),
    (1, Field::C, "t"),
    (2, Field::A, "fc"),
    (2, Field::B, "fy"),
    (3, Field::A, "dead"),
    (3, Field::B, "live"),
    (4, Field::A, "cx"),
    (4, Field::B, "cy"),
    (4, Field::C, "sides"),
    (5, Field::A, "x span"),
    (6, Field::A, "y span"),
    (7, Field::A, "x line beam width"),
    (7, Field::B, "x line beam depth"),
    (8, Field::A, "y line beam width"),
    (8, Field::B, "y line beam depth"),
    (9, Field::A, "offset along x"),
    (9, Field::B, "offset along y"),
];

/// The fields it does not list.
const UNLISTED: [(u16, Field, &str); 9] = [
    (2, Field::C, "materials c"),
    (3, Field::C, "loads c"),
    (5, Field::B, "x span b"),
    (5, Field::C, "x span c"),
    (6, Field::B, "y span b"),
    (6, Field::C, "y span c"),
    (7, Field::C, "x line beam c"),
    (8, Field::C, "y line beam c"),
    (9, Field::C, "offset c"),
];

/// Bits that a reader of too few bytes, or of signed numbers, would miss.
const STRAY_VALUES: [u32; 3] = [1, 1 << 24, 1 << 31];

/// At and one past both ends of a listed field's range, and inside it what the range leaves out.
pub fn tried_values(kind: u16, field: Field) -> &'static [u32] {
    match (kind, field) {
        (1, Field::C) => &[0, 89, 90, 500, 501],
        (1, _) => &[0, 1, 2, 12, 13],
        (2, Field::A) => &[19, 20, 60, 61],
        (2, _) => &[279, 280, 281, 300, 419, 420, 421, 519, 520, 521],
        (3, Field::A) => &[999, 1_000, 30_000, 30_001],
        (3, _) => &[0, 50_000, 50_001],
        (4, Field::C) => &[
            0, 1, 2, 3, 4, 7, 8, 12, 16, 32, 48, 64, 85, 128, 138, 154, 167, 168, 169, 170, 171,
            176, 192, 255, 256,
        ],
        (4, _) => &[190, 199, 200, 205, 1_495, 1_500, 1_501, 1_510],
        (5 | 6, _) => &[
            980, 999, 1_000, 1_010, 1_020, 11_990, 12_000, 12_001, 12_020,
        ],
        (7 | 8, Field::A) => &[0, 149, 150, 1_000, 1_001],
        (7 | 8, _) => &[0, 90, 91, 1_500, 1_501],
        _ => &[0, 12_000, 12_001],
    }
}
