//! The largest floors, and files past them.

use super::Case;
use floor::{record, with, Field, Floor};

/// 12 by 12 bays with nothing left out and every value at the end of its range or near it.
fn full() -> Vec<u8> {
    let mut floor = Floor::good(12, 12).with_beams_everywhere().with_offsets();
    floor.t = 500;
    floor.sides = 2 + 4 + 2 * 64;
    floor.cx = 1_500;
    floor.cy = 1_490;
    floor.x_spans[11] = 12_000;
    floor.y_spans[11] = 12_000;
    floor.offsets[168] = (12_000, 12_000);
    floor.bytes()
}

pub fn cases() -> Vec<Case> {
    let full = full();
    let mut cases = vec![
        Case::floor("12x12 with everything", full.clone()),
        Case::floor("13x13 with all its records", Floor::good(13, 13).bytes()),
        Case::floor(
            "12x12 and one offset more",
            [full.clone(), record(9, 169, [0, 0, 0])].concat(),
        ),
    ];
    for (words, kind, index, field, value) in [
        ("last offset numbered 169", 9, 168, Field::Index, 169),
        ("last offset 12001 along y", 9, 168, Field::B, 12_001),
    ] {
        cases.push(Case::floor(
            format!("12x12 {words}"),
            with(&full, kind, index, field, value),
        ));
    }
    cases.push(Case::change(
        "12x12 last offset",
        &full,
        record(9, 168, [7, 8, 0]),
    ));
    cases
}
