//! Opening a floor with a lent table and a governing slice.

use crate::hand_made::{self, ONE_BAY};
use crate::verdict::refused;
use floor::Floor;
use reference::floor_file::sizes;
use reference::governing;
use reference::opening::open;
use reference::table::numbers;

const HELD: u32 = 7_777;

/// "Numbers past the table stay", and so do those past the slice.
#[test]
fn opening_fills_table_and_slice_and_no_more() {
    let floor = Floor::clear(3, 3).bytes();
    let right = numbers(&floor);
    for tail in [0, 1, 40] {
        let mut table = vec![HELD; 384 + tail];
        let mut slice = vec![HELD; 160 + tail];
        assert_eq!(open(&floor, &mut table, &mut slice), (0, 0));
        assert_eq!(table[..384], right);
        assert_eq!(slice[..160], governing::numbers(sizes(&floor), &right));
        assert_eq!(table[384..], vec![HELD; tail]);
        assert_eq!(slice[160..], vec![HELD; tail]);
    }
}

/// "Verdict not 0: all of them are 0." "All zero when the verdict is not 0."
#[test]
fn opening_a_broken_floor_writes_zeros() {
    let mut table = vec![HELD; 65];
    let mut slice = vec![HELD; 41];
    let floor = hand_made::floor(ONE_BAY);
    assert_eq!(open(&floor, &mut table, &mut slice), (0, 1));
    assert_eq!(table, [vec![0; 64], vec![HELD]].concat());
    assert_eq!(slice, [vec![0; 40], vec![HELD]].concat());
}

#[track_caller]
fn assert_refused(floor: &[u8], table: usize, slice: usize, expected: u128) {
    let (mut table, mut slice) = (vec![HELD; table], vec![HELD; slice]);
    let answer = open(floor, &mut table, &mut slice);
    assert_eq!(answer, (expected, 255));
    // "Refusals write nothing."
    assert!(table.iter().chain(&slice).all(|&number| number == HELD));
}

/// 8: "lent table shorter than 16·((ny+1)nx+(nx+1)ny) numbers"
#[test]
fn a_table_too_short() {
    let floor = Floor::clear(3, 4).bytes();
    for length in [0, 1, 16, 480, 495] {
        assert_refused(&floor, length, 200, 8);
    }
    assert_eq!(open(&floor, &mut [0; 496], &mut [0; 200]), (0, 0));
}

/// 13: "the slice is too short, tried right after 8"
#[test]
fn a_slice_too_short() {
    let floor = Floor::clear(3, 4).bytes();
    for length in [0, 1, 5, 195, 199] {
        assert_refused(&floor, 496, length, 13);
        assert_refused(&floor, 495, length, 8);
    }
    // Also where nothing but zeros would be written.
    assert_refused(&hand_made::floor(ONE_BAY), 64, 39, 13);
}

/// "Opening a floor tries 1 to 8", then 13: what is lent comes last.
#[test]
fn a_refused_floor() {
    for (number, floor) in refused() {
        for length in [0, 500] {
            assert_refused(&floor, length, length, number);
        }
    }
    assert_refused(&[], 0, 0, 1);
}
