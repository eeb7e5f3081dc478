//! A change of a held floor, of the table lent with it and of the governing slice.

use crate::hand_made::{self, ONE_BAY};
use crate::verdict::refused;
use floor::{last_index, record, with, Field, Floor};
use reference::floor_file::sizes;
use reference::governing;
use reference::held::change;
use reference::named::named;
use reference::opening::open;
use reference::table::{numbers, place};
use reference::verdict::judge;

const WRONG: u32 = u32::MAX;
const TAIL: [u32; 3] = [1, 2, 3];

/// Beams everywhere and a slab thick enough for a little more.
fn clear() -> Vec<u8> {
    let floor = Floor::clear(3, 4).with_beams_everywhere();
    assert_eq!(judge(&floor.bytes()), (0, 0));
    floor.bytes()
}

/// One change of each kind and index that keeps `clear` clear and alters something.
fn clear_changes(floor: &[u8]) -> Vec<(u16, u16, Vec<u8>)> {
    let mut changes = Vec::new();
    for (kind, values) in [
        (3, [6_000, 3_000, 0]),
        (5, [5_800, 0, 0]),
        (6, [6_200, 0, 0]),
        (7, [320, 650, 0]),
        (8, [330, 660, 0]),
        (9, [100, 200, 0]),
    ] {
        for index in 0..=last_index(floor, kind) {
            changes.push((kind, index, record(kind, index, values)));
        }
    }
    changes
}

/// "Otherwise the records named here get their right value and every other keeps what it held, right or
/// not."
#[test]
fn only_the_named_records_are_written() {
    let floor = clear();
    for (kind, index, bytes) in clear_changes(&floor) {
        let mut held = floor.clone();
        let mut table = vec![WRONG; 496];
        table.extend(TAIL);
        assert_eq!(change(&mut held, &mut table, &mut [0; 200], &bytes), (0, 0));
        let right = numbers(&held);
        let named = named(kind.into(), index.into(), sizes(&floor));
        for record in 0..31 {
            let expected = match named.contains(&record) {
                true => right[place(record)].to_vec(),
                false => vec![WRONG; 16],
            };
            assert_eq!(table[place(record)], expected, "{kind} {index}: {record}");
        }
        assert_eq!(table[496..], TAIL);
    }
}

/// Supports that a change of `clear` writes, counted by hand: x lines 0 to 4 have the supports 0–3, 4–7,
/// 8–11, 12–15, 16–19; y lines 0 to 3 have 20–24, 25–29, 30–34, 35–39.
const WRITTEN: [(u16, u16, &[u128]); 6] = [
    // Span 1 of every x line; y lines 1 and 2.
    (
        5,
        1,
        &[
            1, 2, 5, 6, 9, 10, 13, 14, 17, 18, 25, 26, 27, 28, 29, 30, 31, 32, 33, 34,
        ],
    ),
    // x lines 0 and 1; span 0 of every y line.
    (
        6,
        0,
        &[0, 1, 2, 3, 4, 5, 6, 7, 20, 21, 25, 26, 30, 31, 35, 36],
    ),
    (7, 2, &[8, 9, 10, 11]),
    // x line 4; the last span of every y line.
    (7, 4, &[16, 17, 18, 19, 23, 24, 28, 29, 33, 34, 38, 39]),
    // y line 0; the first span of every x line.
    (
        8,
        0,
        &[0, 1, 4, 5, 8, 9, 12, 13, 16, 17, 20, 21, 22, 23, 24],
    ),
    (9, 7, &[]),
];

/// "only supports next to a written record are written, from the table as it then stands": a neighbouring
/// record that is wrong is read as it is.
#[test]
fn only_supports_next_to_a_written_record_are_written() {
    let floor = clear();
    for (kind, index, written) in WRITTEN {
        let mut all = clear_changes(&floor).into_iter();
        let (.., bytes) = all.find(|one| (one.0, one.1) == (kind, index)).unwrap();
        let mut held = floor.clone();
        let mut table = Vec::from_iter(1_000_000..1_000_496);
        let mut slice = [&[WRONG; 200][..], &TAIL].concat();
        assert_eq!(change(&mut held, &mut table, &mut slice, &bytes), (0, 0));
        let from_table = governing::numbers(sizes(&held), &table);
        for support in 0..40 {
            let expected = match written.contains(&support) {
                true => from_table[governing::place(support)].to_vec(),
                false => vec![WRONG; 5],
            };
            let found = &slice[governing::place(support)];
            assert_eq!(found, expected, "{kind} {index}: {support}");
        }
        assert_eq!(slice[200..], TAIL);
    }
}

/// x span 1 alters, and span 0 of x line 2, record 6, does not: what it holds at its high end is larger
/// than anything right, so that it governs at support 9.
#[test]
fn a_wrong_neighbour_is_read_as_it_is() {
    let mut held = clear();
    let mut table = numbers(&held);
    let wrong = [u32::MAX, 4, 3, 2, 1];
    table[place(6)][11..].copy_from_slice(&wrong);
    let mut slice = [7; 200];
    let longer = record(5, 1, [5_800, 0, 0]);
    assert_eq!(change(&mut held, &mut table, &mut slice, &longer), (0, 0));
    assert_eq!(slice[governing::place(9)], wrong);
    assert_eq!(slice[governing::place(10)], numbers(&held)[place(8)][1..6]);
    assert_eq!(slice[governing::place(8)], [7; 5]);
}

/// A table that `open` filled stays right, and the slice with it: nothing that alters is left out of what
/// is written.
#[test]
fn what_is_right_stays_right() {
    let mut held = clear();
    let (mut table, mut slice) = (vec![WRONG; 496], vec![WRONG; 200]);
    assert_eq!(open(&held, &mut table, &mut slice), (0, 0));
    for (_, _, bytes) in clear_changes(&held) {
        assert_eq!(change(&mut held, &mut table, &mut slice, &bytes), (0, 0));
        assert_eq!(table, numbers(&held));
        assert_eq!(slice, governing::numbers(sizes(&held), &table));
    }
}

/// "If the slice agreed with the table before a change, it agrees with it after", though the table be
/// wrong.
#[test]
fn a_slice_that_agrees_with_a_wrong_table_still_does() {
    let floor = clear();
    for (_, _, bytes) in clear_changes(&floor) {
        let mut held = floor.clone();
        let mut table: Vec<u32> = (0..496_u32)
            .map(|n| n.wrapping_mul(2_654_435_761))
            .collect();
        let mut slice = governing::numbers(sizes(&floor), &table);
        assert_eq!(change(&mut held, &mut table, &mut slice, &bytes), (0, 0));
        assert_eq!(slice, governing::numbers(sizes(&held), &table));
    }
}

/// The floor after a change has the change's bytes in it, and no other byte altered.
#[test]
fn the_change_is_stored() {
    let floor = clear();
    let mut held = floor.clone();
    let longer = record(5, 1, [5_800, 0, 0]);
    let answer = change(&mut held, &mut [0; 496], &mut [0; 200], &longer);
    assert_eq!(answer, (0, 0));
    assert_eq!(held, with(&floor, 5, 1, Field::A, 5_800));
}

/// A table and a slice of wrong numbers, each with a tail.
fn wrong() -> (Vec<u32>, Vec<u32>) {
    let with_tail = |length| [vec![WRONG; length], TAIL.to_vec()].concat();
    (with_tail(496), with_tail(200))
}

fn assert_zeros(table: &[u32], slice: &[u32]) {
    assert_eq!(table, [&[0; 496][..], &TAIL].concat());
    assert_eq!(slice, [&[0; 200][..], &TAIL].concat());
}

/// "If the verdict before or after is not 0, the whole table is written", and every support with it.
#[test]
fn broken_and_mended() {
    let mut held = clear();
    let (mut table, mut slice) = wrong();
    let far = record(9, 7, [601, 0, 0]);
    assert_eq!(change(&mut held, &mut table, &mut slice, &far), (0, 8));
    assert_zeros(&table, &slice);
    // Broken before and after.
    (table, slice) = wrong();
    let heavier = record(3, 0, [6_000, 12_001, 0]);
    let answer = change(&mut held, &mut table, &mut slice, &heavier);
    assert_eq!(answer, (0, 8 + 16));
    assert_zeros(&table, &slice);
    // "Clearing a verdict because the changed panel passes hides the others."
    let mended = record(9, 7, [600, 0, 0]);
    assert_eq!(change(&mut held, &mut table, &mut slice, &mended), (0, 16));
    assert_zeros(&table, &slice);
    // Broken before, and not after: wrong numbers are put right everywhere.
    (table, slice) = wrong();
    let lighter = record(3, 0, [6_000, 12_000, 0]);
    assert_eq!(change(&mut held, &mut table, &mut slice, &lighter), (0, 0));
    let right = numbers(&held);
    assert_eq!(table, [&right[..], &TAIL].concat());
    let governing = governing::numbers(sizes(&held), &right);
    assert_eq!(slice, [&governing[..], &TAIL].concat());
}

/// "Offset: none", yet where it mends the floor the whole table is written, and the slice with it.
#[test]
fn an_offset_that_mends() {
    let mut held = with(&clear(), 9, 0, Field::B, 601);
    let (mut table, mut slice) = wrong();
    let mending = record(9, 0, [0, 0, 0]);
    assert_eq!(change(&mut held, &mut table, &mut slice, &mending), (0, 0));
    assert_eq!(table[..496], numbers(&clear()));
    assert_eq!(slice[..200], governing::numbers(sizes(&held), &table));
    (table, slice) = wrong();
    assert_eq!(change(&mut held, &mut table, &mut slice, &mending), (0, 0));
    assert_eq!((table, slice), wrong());
}

/// "Kind 3: all."
#[test]
fn loads_write_every_support() {
    let mut held = clear();
    let (mut table, mut slice) = wrong();
    let loads = record(3, 0, [6_000, 3_000, 0]);
    assert_eq!(change(&mut held, &mut table, &mut slice, &loads), (0, 0));
    let governing = governing::numbers(sizes(&held), &numbers(&held));
    assert_eq!(slice, [&governing[..], &TAIL].concat());
}

/// On so many numbers of a table and of a slice.
#[track_caller]
fn assert_refused(floor: &[u8], (table, slice): (usize, usize), bytes: &[u8], expected: u128) {
    let mut held = floor.to_vec();
    let (mut table, mut slice) = (vec![WRONG; table], vec![WRONG; slice]);
    let answer = change(&mut held, &mut table, &mut slice, bytes);
    assert_eq!(answer, (expected, 255), "{bytes:?}");
    // "Refusals write nothing."
    assert_eq!(held, floor);
    assert!(table.iter().chain(&slice).all(|&number| number == WRONG));
}

/// "A change tries 1 to 7 on the held floor, 9, then 5 to 7 on the changed floor, then 8", and 13 "right
/// after 8".
#[test]
fn refusals_in_their_order() {
    let floor = clear();
    for (bytes, expected) in [
        (Vec::new(), 9),
        (record(4, 0, [400, 400, 0]), 9),
        (record(3, 1, [5_000, 0, 0]), 9),
        (record(5, 3, [5_000, 0, 0]), 9),
        (record(5, 0, [5_010, 1, 0]), 9),
        (record(5, 0, [5_010, 0, 0]), 5),
        (record(7, 0, [149, 200, 0]), 5),
        (record(7, 0, [0, 0, 0]), 7),
        (record(8, 1, [300, 200, 0]), 7),
    ] {
        for lent in [(496, 200), (495, 200), (496, 199), (495, 199)] {
            assert_refused(&floor, lent, &bytes, expected);
        }
    }
    for change in [record(5, 0, [5_800, 0, 0]), record(9, 0, [601, 0, 0])] {
        for length in [0, 16, 495] {
            assert_refused(&floor, (length, 200), &change, 8);
            assert_refused(&floor, (length, 199), &change, 8);
        }
        for length in [0, 5, 199] {
            assert_refused(&floor, (496, length), &change, 13);
        }
    }
    // A change that would write no support asks for the slice too.
    assert_refused(&floor, (496, 199), &record(9, 0, [0, 0, 0]), 13);
    let wide = with(&floor, 4, 0, Field::A, 1_500);
    assert_refused(&wide, (496, 200), &record(5, 0, [2_980, 0, 0]), 6);
    assert_refused(&wide, (0, 0), &record(5, 0, [2_980, 0, 0]), 6);
}

#[test]
fn changes_of_refused_floors() {
    for (number, floor) in refused() {
        for bytes in [Vec::new(), record(3, 0, [6_000, 0, 0])] {
            assert_refused(&floor, (0, 0), &bytes, number);
            assert_refused(&floor, (500, 500), &bytes, number);
        }
    }
    assert_refused(&[], (0, 0), &[], 1);
}

/// A floor with too few bays is never clear: every change writes zeros.
#[test]
fn changes_of_a_small_floor() {
    let mut held = hand_made::floor(ONE_BAY);
    let (mut table, mut slice) = ([WRONG; 65], [WRONG; 41]);
    let offset = record(9, 0, [0, 0, 0]);
    assert_eq!(change(&mut held, &mut table, &mut slice, &offset), (0, 1));
    assert_eq!(table[..64], [0; 64]);
    assert_eq!(slice[..40], [0; 40]);
    assert_eq!((table[64], slice[40]), (WRONG, WRONG));
}
