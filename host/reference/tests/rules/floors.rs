//! The floor file: its length, its records, its sides.

use crate::hand_made::{self, edited, ONE_BAY, TWO_BY_ONE};
use reference::floor_file::{order, records, sides, Record, Sides, Sizes};
use reference::refusals::refusal;

#[test]
fn typed_floors_are_read_and_taken() {
    for text in [ONE_BAY, TWO_BY_ONE] {
        let floor = hand_made::floor(text);
        let rows = hand_made::rows(text);
        assert_eq!(records(&floor).len(), rows.len());
        for (
            Record {
                kind,
                index,
                a,
                b,
                c,
            },
            row,
        ) in records(&floor).into_iter().zip(rows)
        {
            let read = [kind, index, a, b, c].map(|number| u32::try_from(number).unwrap());
            assert_eq!(read[..], row);
        }
        assert_eq!(refusal(&floor), 0);
    }
}

/// "length is no multiple of 16, or below 14 records"
#[test]
fn every_length_below_14_records() {
    let good = hand_made::floor(ONE_BAY);
    for length in 0..good.len() {
        assert_eq!(refusal(&good[..length]), 1, "{length} bytes");
    }
}

/// West, east, south and north are digits of 1, 4, 16 and 64; restrained is 2, unrestrained 1.
#[test]
fn sides_are_told_apart() {
    for (restrained, expected) in [
        (1, [2, 1, 1, 1]),
        (4, [1, 2, 1, 1]),
        (16, [1, 1, 2, 1]),
        (64, [1, 1, 1, 2]),
    ] {
        let Sides {
            west,
            east,
            south,
            north,
        } = sides(85 + restrained);
        assert_eq!([west, east, south, north], expected);
    }
}

/// The table's column "count" added up: 14 records for the smallest floor, as refusal 1 says, and
/// 3,568 bytes for the largest, as "a local [0u8; 3568]" says.
#[test]
fn record_count() {
    for (nx, ny, records) in [(1, 1, 14), (3, 2, 28), (2, 3, 28), (12, 12, 3_568 / 16)] {
        let order = order(Sizes { nx, ny, t: 200 });
        assert_eq!(order.len(), records, "{nx}x{ny}");
    }
}

/// A good floor stops being one with any kind or index altered, or any field not listed.
#[test]
fn every_kind_index_and_unlisted_field_is_read() {
    let rows = hand_made::rows(TWO_BY_ONE);
    for (position, row) in rows.iter().enumerate() {
        let unlisted = match row[0] {
            5 | 6 => vec![3, 4],
            1 | 4 => vec![],
            _ => vec![4],
        };
        for column in [vec![0, 1], unlisted].concat() {
            let expected = if position == 0 { 2 } else { 4 };
            let floor = edited(TWO_BY_ONE, position, column, row[column] + 1);
            assert_eq!(
                refusal(&floor),
                expected,
                "record {position} column {column}"
            );
        }
    }
}
