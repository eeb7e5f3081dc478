//! Floor files alone: a test for each refusal, by the descriptions of what earns it.

use crate::{assert_refusals, case, cases};
use reference::floor_file::records_of_kind;
use reference::layout::{layout, Layout};
use reference::refusals::refusal;
use reference::verdict::judge;
use std::collections::BTreeSet;

/// "length is no multiple of 16, or below 14 records"
#[test]
fn refusal_1() {
    assert_refusals(&[
        ("empty file", 1),
        ("1 bytes of a good floor", 1),
        ("15 bytes of a good floor", 1),
        ("16 bytes of a good floor", 1),
        ("17 bytes of a good floor", 1),
        ("208 bytes of a good floor", 1),
        ("223 bytes of a good floor", 1),
        ("14 records", 0),
        ("14 records and 1 bytes", 1),
        ("14 records and 15 bytes", 1),
        ("239 bytes of a 2x1 floor", 1),
        ("0x1 with all its records", 1),
    ]);
}

/// "record 0 is not kind 1 index 0, or nx, ny or t is out of range"
#[test]
fn refusal_2() {
    assert_refusals(&[
        ("record 0 of kind 0", 2),
        ("record 0 of kind 2", 2),
        ("record 0 of kind 9", 2),
        ("record 0 of kind 257", 2),
        ("record 0 of index 1", 2),
        ("record 0 of index 256", 2),
        ("14 records of bytes 0", 2),
        ("0x12 with all its records", 2),
        ("12x0 with all its records", 2),
        ("12x1 with all its records", 0),
        ("1x12 with all its records", 0),
        ("13x1 with all its records", 2),
        ("13x13 with all its records", 2),
        ("nx 0", 2),
        ("ny 13", 2),
        ("t 89", 2),
        ("t 90", 0),
        ("t 500", 0),
        ("t 501", 2),
        ("nx 65537", 2),
        ("t 4294967295", 2),
        ("last sizes swapped with first materials", 2),
    ]);
}

/// "record count is not what nx and ny ask"
#[test]
fn refusal_3() {
    assert_refusals(&[
        ("3x2 less its last record", 3),
        ("3x2 less an x span", 3),
        ("3x2 and its last record again", 3),
        ("3x2 and a record of zeros", 3),
        ("1x1 and a record of kind 10", 3),
        ("nx 12", 3),
        ("ny 2", 3),
        ("3x3 said to be 2x3", 3),
        ("3x3 said to be 3x4", 3),
        ("12x12 and one offset more", 3),
    ]);
}

/// "some kind, index or zero field is not as listed"
#[test]
fn refusal_4() {
    assert_refusals(&[
        ("3x2 said to be 2x3", 4),
        ("3x3 said to be 1x6", 4),
        ("materials 0 of kind 3", 4),
        ("x span 1 of kind 6", 4),
        ("offset 5 of kind 10", 4),
        ("y line beam 2 of kind 264", 4),
        ("loads 0 numbered 1", 4),
        ("x span 1 numbered 0", 4),
        ("offset 5 numbered 261", 4),
        ("last x span swapped with first y span", 4),
        ("first offset swapped with the last, 5", 4),
        ("materials c 1", 4),
        ("loads c 16777216", 4),
        ("x span b 2147483648", 4),
        ("y span c 1", 4),
        ("x line beam c 1", 4),
        ("offset c 2147483648", 4),
        ("sizes once more in last place", 4),
        ("12x12 last offset numbered 169", 4),
    ]);
}

/// "some value is out of range", of what stands once
#[test]
fn refusal_5_of_the_whole_floor() {
    assert_refusals(&[
        ("fc 19", 5),
        ("fc 20", 0),
        ("fc 60", 0),
        ("fc 61", 5),
        ("fy 279", 5),
        ("fy 280", 0),
        ("fy 300", 5),
        ("fy 420", 0),
        ("fy 520", 0),
        ("fy 521", 5),
        ("dead 999", 5),
        ("dead 1000", 0),
        ("dead 30000", 0),
        ("dead 30001", 5),
        ("live 0", 0),
        ("live 50000", 0),
        ("live 50001", 5),
        ("cx 190", 5),
        ("cx 200", 0),
        ("cx 205", 5),
        ("cy 1500", 0),
        ("cy 1510", 5),
        ("sides 2", 0),
        ("sides 3", 5),
        ("sides 12", 5),
        ("sides 48", 5),
        ("sides 85", 0),
        ("sides 170", 0),
        ("sides 171", 5),
        ("sides 192", 5),
        ("sides 256", 5),
        ("sides 16777216", 5),
    ]);
}

/// "some value is out of range, or one beam size alone is 0"
#[test]
fn refusal_5_of_spans_beams_and_offsets() {
    assert_refusals(&[
        ("x span 980", 5),
        ("x span 1000", 0),
        ("x span 1010", 5),
        ("y span 12000", 0),
        ("y span 12020", 5),
        ("x line beam width 0", 5),
        ("x line beam depth 0", 5),
        ("x line beam width 149", 5),
        ("x line beam depth 90", 5),
        ("x line beam depth 91", 0),
        ("y line beam width 150", 0),
        ("y line beam depth 1500", 0),
        ("y line beam depth 1501", 5),
        ("offset along x 12000", 0),
        ("offset along y 12001", 5),
        ("x span 69536", 5),
        ("offset along x 12040 in the last, 11", 5),
        ("12x12 last offset 12001 along y", 5),
    ]);
}

/// "2cx exceeds an x span, or 2cy a y span"
#[test]
fn refusal_6() {
    assert_refusals(&[
        ("x span 0 of 1200, cx 600", 0),
        ("x span 0 of 1200, cx 610", 6),
        ("x span 0 of 1180, cx 600", 6),
        ("x span 2 of 1200, cx 600", 0),
        ("x span 2 of 1200, cx 610", 6),
        ("y span 0 of 1200, cy 600", 0),
        ("y span 0 of 1200, cy 610", 6),
        ("y span 1 of 1180, cy 600", 6),
        ("cx 610 against a span of 1200 across", 0),
        ("cy 610 against a span of 1200 across", 0),
    ]);
}

#[test]
fn refusal_7() {
    assert_refusals(&[
        ("3x3 beams outer less south: x lines 0001, y lines 1001", 7),
        ("3x3 beams outer less east: x lines 1001, y lines 1000", 7),
        (
            "3x3 beams all but an inner x line: x lines 1011, y lines 1111",
            7,
        ),
        (
            "3x3 beams outer and an inner y line: x lines 1001, y lines 1011",
            7,
        ),
        ("3x3 beams x lines only: x lines 1111, y lines 0000", 7),
        ("3x3 beams y lines only: x lines 0000, y lines 1111", 7),
        ("3x3 beams inner lines only: x lines 0110, y lines 0110", 7),
        ("1x1 beams by choice: x lines 11, y lines 01", 7),
        ("x line 0 of depth 200, t 200", 7),
        ("x line 0 of depth 201, t 200", 0),
        ("x line 1 of depth 200, t 200", 7),
        ("y line 3 of depth 200, t 200", 7),
        ("y line 3 of depth 201, t 200", 0),
    ]);
}

#[test]
fn the_lower_number_comes_out() {
    assert_refusals(&[
        ("fault 4 in the last offset and fault 5 in the materials", 4),
        ("fault 4 in the materials and fault 5 in the last offset", 4),
        (
            "fault 4 in the last offset and fault 6 in the last y span",
            4,
        ),
        ("fault 4 in the last offset and fault 7 in x line 0", 4),
        (
            "fault 5 in the last offset and fault 6 in the last y span",
            5,
        ),
        ("fault 5 in the last offset and fault 7 in x line 0", 5),
        ("fault 6 in the last y span and fault 7 in x line 0", 6),
        ("fault 3 by ny 3 and fault 4 in the materials", 3),
        ("fault 2 by t 89 and fault 3 by ny 3", 2),
        ("fault 1 by a byte more and fault 2 by t 89", 1),
        ("13 records and t 89", 1),
    ]);
}

/// A description names the two faults by the refusals they earn alone.
fn faults(description: &str) -> Option<[u128; 2]> {
    let (earlier, later) = description
        .strip_prefix("fault ")?
        .split_once(" and fault ")?;
    Some([earlier, later].map(|fault| fault.split(' ').next().unwrap().parse().unwrap()))
}

#[test]
fn every_two_of_the_seven_are_tried_together() {
    let mut seen = BTreeSet::new();
    for case in cases() {
        let Some(faults) = faults(&case.description) else {
            continue;
        };
        let lower = faults.into_iter().min().unwrap();
        assert_eq!(case.refusal(), lower, "{}", case.description);
        seen.insert(faults);
    }
    // 7·6/2
    assert_eq!(seen.len(), 21);
}

/// "A refused opening or change gives verdict 255, which no floor earns"
#[test]
fn refused_floors_get_255() {
    for case in cases() {
        let (refused, verdict) = judge(&case.floor);
        assert_eq!(refused, refusal(&case.floor), "{}", case.description);
        match refused {
            0 => assert!(verdict <= 127, "{}", case.description),
            _ => assert_eq!(verdict, 255, "{}", case.description),
        }
    }
}

#[test]
fn layouts_of_floors_taken() {
    use Layout::{Everywhere, NoBeams, OuterLinesOnly};
    for (description, expected) in [
        (
            "3x3 beams everywhere: x lines 1111, y lines 1111",
            Everywhere,
        ),
        (
            "3x3 beams outer only: x lines 1001, y lines 1001",
            OuterLinesOnly,
        ),
        ("3x3 beams none: x lines 0000, y lines 0000", NoBeams),
        (
            "2x2 beams outer only: x lines 101, y lines 101",
            OuterLinesOnly,
        ),
        ("1x1 beams by choice: x lines 11, y lines 11", Everywhere),
        ("1x1 beams by choice: x lines 00, y lines 00", NoBeams),
        (
            "1x2 beams outer only: x lines 101, y lines 11",
            OuterLinesOnly,
        ),
        ("1x2 beams everywhere: x lines 111, y lines 11", Everywhere),
        (
            "2x1 beams outer only: x lines 11, y lines 101",
            OuterLinesOnly,
        ),
        (
            "3x1 beams outer only: x lines 11, y lines 1001",
            OuterLinesOnly,
        ),
        ("12x12 with everything", Everywhere),
    ] {
        let case = case(description);
        assert_eq!(case.refusal(), 0, "{description}");
        assert_eq!(layout(&case.floor), Some(expected), "{description}");
    }
}

/// West, east, south and north restrained, each while the others are not.
#[test]
fn sides_of_floors_taken() {
    for (side, sum) in [("west", 86), ("east", 89), ("south", 101), ("north", 149)] {
        let case = case(&format!("{side} restrained, the others unrestrained"));
        assert_eq!(case.refusal(), 0, "{side}");
        assert_eq!(records_of_kind(&case.floor, 4)[0].c, sum, "{side}");
    }
}
