//! What holds of the table of every clear floor that is described.

use crate::floors::clear_floors;
use reference::floor_file::{records_of_kind, sides, sizes, Sizes};
use reference::governing;
use reference::table::{numbers, place, x_record, y_record};

/// "Column strip = total·part/10000 down; middle = the rest. Beam = column·g/10000 down, g = 85·A/100
/// down; slab = the rest."
#[test]
fn sections_add_up() {
    for floor in clear_floors() {
        for record in numbers(&floor.bytes).chunks(16) {
            for section in record[1..].chunks(5) {
                let [total, column, middle, beam, slab] = section.try_into().unwrap();
                assert_eq!(column + middle, total, "{}", floor.description);
                assert_eq!(beam + slab, column, "{}", floor.description);
            }
        }
    }
}

/// "Negatives plus twice the positive make 200·Mo, but 201·Mo in an unrestrained end span."
#[test]
fn negatives_plus_twice_the_positive() {
    for floor in clear_floors() {
        let sizes = sizes(&floor.bytes);
        let Sizes { nx, ny, .. } = sizes;
        let sides = sides(records_of_kind(&floor.bytes, 4)[0].c);
        let x_percent = |span| percent(span, nx, sides.west, sides.east);
        let y_percent = |span| percent(span, ny, sides.south, sides.north);
        let table = numbers(&floor.bytes);
        let sum = |record: u128| sum(&table[place(record)]);
        for line in 0..=ny {
            for span in 0..nx {
                let (mo, sum) = sum(x_record(sizes, line, span));
                assert_eq!(sum, x_percent(span) * mo, "{}", floor.description);
            }
        }
        for line in 0..=nx {
            for span in 0..ny {
                let (mo, sum) = sum(y_record(sizes, line, span));
                assert_eq!(sum, y_percent(span) * mo, "{}", floor.description);
            }
        }
    }
}

fn percent(span: u128, spans: u128, low_side: u128, high_side: u128) -> u64 {
    let unrestrained = span == 0 && low_side == 1 || span + 1 == spans && high_side == 1;
    if unrestrained {
        201
    } else {
        200
    }
}

/// Mo, and both negatives with twice the positive.
fn sum(numbers: &[u32]) -> (u64, u64) {
    let [mo, low, between, high] = [0, 1, 6, 11].map(|at| u64::from(numbers[at]));
    (mo, low + 2 * between + high)
}

/// The totals at the supports of a frame, by its records: the larger of the two that meet.
fn larger_totals(records: &[u32]) -> Vec<u32> {
    let (low, high) = (1, 11);
    let last = records.len() / 16 - 1;
    let mut totals = vec![records[low]];
    for span in 0..last {
        totals.push(records[16 * span + high].max(records[16 * (span + 1) + low]));
    }
    totals.push(records[16 * last + high]);
    totals
}

/// "For every frame and support", "the larger": x frames first, line by line; and the parts add up.
#[test]
fn the_larger_total_at_each_support() {
    for floor in clear_floors() {
        let sizes = sizes(&floor.bytes);
        let (nx, ny) = (sizes.nx as usize, sizes.ny as usize);
        let table = numbers(&floor.bytes);
        let (x_frames, y_frames) = table.split_at(16 * (ny + 1) * nx);
        let x_totals = x_frames.chunks(16 * nx).flat_map(larger_totals);
        let y_totals = y_frames.chunks(16 * ny).flat_map(larger_totals);
        let mut totals = x_totals.chain(y_totals);
        for entry in governing::numbers(sizes, &table).chunks(5) {
            let [total, column, middle, beam, slab] = entry.try_into().unwrap();
            assert_eq!(totals.next(), Some(total), "{}", floor.description);
            assert_eq!(column + middle, total, "{}", floor.description);
            assert_eq!(beam + slab, column, "{}", floor.description);
        }
        assert_eq!(totals.next(), None, "{}", floor.description);
    }
}
