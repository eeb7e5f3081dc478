//! Refusal 5, "some value is out of range, or one beam size alone is 0", and the ranges of record 0.

use crate::hand_made::{edited, THIN};
use reference::refusals::refusal;

/// The least and the greatest value below `end` that is in range at this place of the floor, and how
/// many there are.
fn range(row: usize, column: usize, end: u32) -> (u32, u32, usize) {
    let in_range: Vec<u32> = (0..end)
        .filter(|&value| ![2, 5].contains(&refusal(&edited(THIN, row, column, value))))
        .collect();
    (in_range[0], in_range[in_range.len() - 1], in_range.len())
}

/// Every value up to well past its range. The rows are those of `THIN`, columns 2 to 4 are a, b, c.
#[test]
fn ranges_and_how_many_values_they_hold() {
    for (name, row, column, end, expected) in [
        ("nx", 0, 2, 600, (1, 12, 12)),
        ("ny", 0, 3, 600, (1, 12, 12)),
        ("t", 0, 4, 1_500, (90, 500, 411)),
        ("fc", 1, 2, 600, (20, 60, 41)),
        ("fy, three grades", 1, 3, 1_000, (280, 520, 3)),
        ("dead", 2, 2, 40_000, (1_000, 30_000, 29_001)),
        ("live", 2, 3, 70_000, (0, 50_000, 50_001)),
        ("cx, every tenth", 3, 2, 3_000, (200, 1_500, 131)),
        ("cy, every tenth", 3, 3, 3_000, (200, 1_500, 131)),
        ("sides, 3·3·3·3", 3, 4, 2_000, (0, 170, 81)),
        (
            "x span, every twentieth",
            4,
            2,
            20_000,
            (1_000, 12_000, 551),
        ),
        (
            "y span, every twentieth",
            5,
            2,
            20_000,
            (1_000, 12_000, 551),
        ),
        ("x line beam width", 6, 2, 3_000, (150, 1_000, 851)),
        ("x line beam depth", 7, 3, 3_000, (91, 1_500, 1_410)),
        ("y line beam width", 8, 2, 3_000, (150, 1_000, 851)),
        ("y line beam depth", 9, 3, 3_000, (91, 1_500, 1_410)),
        ("offset along x", 10, 2, 20_000, (0, 12_000, 12_001)),
        ("offset along y", 13, 3, 20_000, (0, 12_000, 12_001)),
    ] {
        assert_eq!(range(row, column, end), expected, "{name}");
    }
}

#[test]
fn fy_is_280_420_or_520() {
    let grades: Vec<u32> = (0..1_000)
        .filter(|&fy| refusal(&edited(THIN, 1, 3, fy)) == 0)
        .collect();
    assert_eq!(grades, [280, 420, 520]);
}
