//! "Refusal numbers, in the order tried": 1 to 7, which speak of the floor alone.

use crate::floor_file::{
    order, records, records_of_kind, sizes, unlisted_fields_are_zero, values_are_in_range,
    RECORD_BYTES,
};
use crate::layout::{layout, lines};

/// "Success is 0."
pub const SUCCESS: u128 = 0;

/// 1: "length is no multiple of 16, or below 14 records"
fn length_is_wrong(floor: &[u8]) -> bool {
    !floor.len().is_multiple_of(RECORD_BYTES) || floor.len() < 14 * RECORD_BYTES
}

/// 2: "record 0 is not kind 1 index 0, or nx, ny or t is out of range"
fn sizes_are_wrong(floor: &[u8]) -> bool {
    let first = records(floor)[0];
    (first.kind, first.index) != (1, 0) || !values_are_in_range(first)
}

/// 3: "record count is not what nx and ny ask"
fn record_count_is_wrong(floor: &[u8]) -> bool {
    records(floor).len() != order(sizes(floor)).len()
}

/// 4: "some kind, index or zero field is not as listed"
fn some_record_is_not_as_listed(floor: &[u8]) -> bool {
    records(floor)
        .into_iter()
        .zip(order(sizes(floor)))
        .any(|(record, listed)| {
            (record.kind, record.index) != listed || !unlisted_fields_are_zero(record)
        })
}

/// 5: "some value is out of range, or one beam size alone is 0"
fn some_value_is_out_of_range(floor: &[u8]) -> bool {
    !records(floor).into_iter().all(values_are_in_range)
}

/// 6: "2cx exceeds an x span, or 2cy a y span"
fn a_column_is_too_wide(floor: &[u8]) -> bool {
    let columns = records_of_kind(floor, 4)[0];
    let (cx, cy) = (columns.a, columns.b);
    let x_spans = records_of_kind(floor, 5);
    let y_spans = records_of_kind(floor, 6);
    x_spans.iter().any(|span| 2 * cx > span.a) || y_spans.iter().any(|span| 2 * cy > span.a)
}

/// 7: "layout not allowed, or a line has a beam whose depth is not above t"
fn beams_are_wrong(floor: &[u8]) -> bool {
    let t = sizes(floor).t;
    let beam_too_shallow = lines(floor)
        .iter()
        .any(|line| line.has_beam() && line.depth <= t);
    layout(floor).is_none() || beam_too_shallow
}

/// Refusals 1 to 7 "in the order tried", each over the whole file before the next.
pub fn refusal(floor: &[u8]) -> u128 {
    if length_is_wrong(floor) {
        1
    } else if sizes_are_wrong(floor) {
        2
    } else if record_count_is_wrong(floor) {
        3
    } else if some_record_is_not_as_listed(floor) {
        4
    } else {
        refusal_5_to_7(floor)
    }
}

/// Refusals 5 to 7, for a floor to which 1 to 4 do not apply.
pub fn refusal_5_to_7(floor: &[u8]) -> u128 {
    if some_value_is_out_of_range(floor) {
        5
    } else if a_column_is_too_wide(floor) {
        6
    } else if beams_are_wrong(floor) {
        7
    } else {
        SUCCESS
    }
}
