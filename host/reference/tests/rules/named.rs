//! "What a change may write": the records named, counted by hand for 3 by 4 bays.
//!
//! x lines 0 to 4 have the records 0–2, 3–5, 6–8, 9–11, 12–14; y lines 0 to 3 have 15–18, 19–22, 23–26,
//! 27–30.

use reference::floor_file::Sizes;
use reference::named::named;
use std::collections::BTreeSet;

fn assert_named(kind: u128, index: u128, expected: &[std::ops::RangeInclusive<u128>]) {
    let sizes = Sizes {
        nx: 3,
        ny: 4,
        t: 200,
    };
    let found = named(kind, index, sizes);
    let once: BTreeSet<u128> = found.iter().copied().collect();
    assert_eq!(once.len(), found.len(), "kind {kind} index {index}");
    let expected: BTreeSet<u128> = expected.iter().cloned().flatten().collect();
    assert_eq!(once, expected, "kind {kind} index {index}");
}

/// "Kind 3: all." "Offset: none."
#[test]
fn loads_and_offsets() {
    assert_named(3, 0, &[0..=30]);
    assert_named(9, 0, &[]);
    assert_named(9, 19, &[]);
}

/// "x span i: span i of every x line, all of y lines i and i+1"
#[test]
fn x_spans() {
    let every = |span: u128| (0..5).map(move |line| 3 * line + span..=3 * line + span);
    for (span, lines) in [(0, 15..=22), (1, 19..=26), (2, 23..=30)] {
        let mut expected = Vec::from_iter(every(span));
        expected.push(lines);
        assert_named(5, span, &expected);
    }
}

/// "y likewise": span j of every y line, all of x lines j and j+1.
#[test]
fn y_spans() {
    let every = |span: u128| (0..4).map(move |line| 15 + 4 * line + span..=15 + 4 * line + span);
    for (span, lines) in [(0, 0..=5), (1, 3..=8), (2, 6..=11), (3, 9..=14)] {
        let mut expected = Vec::from_iter(every(span));
        expected.push(lines);
        assert_named(6, span, &expected);
    }
}

/// "Beam on x line j: that line; for j = 0 the first span of every y line, for j = ny the last"
#[test]
fn beams_on_x_lines() {
    assert_named(7, 0, &[0..=2, 15..=15, 19..=19, 23..=23, 27..=27]);
    assert_named(7, 1, &[3..=5]);
    assert_named(7, 2, &[6..=8]);
    assert_named(7, 3, &[9..=11]);
    assert_named(7, 4, &[12..=14, 18..=18, 22..=22, 26..=26, 30..=30]);
}

/// "y likewise"
#[test]
fn beams_on_y_lines() {
    assert_named(8, 0, &[15..=18, 0..=0, 3..=3, 6..=6, 9..=9, 12..=12]);
    assert_named(8, 1, &[19..=22]);
    assert_named(8, 2, &[23..=26]);
    assert_named(8, 3, &[27..=30, 2..=2, 5..=5, 8..=8, 11..=11, 14..=14]);
}
