//! A change of one record of a held floor.

use crate::floor_file::{order, sizes, unlisted_fields_are_zero, Record, RECORD_BYTES};
use crate::refusals::{refusal, refusal_5_to_7, SUCCESS};

/// Where in the floor the record stands that a change replaces; `None` if the floor has none such.
fn position(floor: &[u8], change: Record) -> Option<usize> {
    order(sizes(floor))
        .into_iter()
        .position(|listed| listed == (change.kind, change.index))
}

/// 9: "a change is not 16 bytes, not of kind 3 or 5..9, has an index the floor lacks, or an unlisted
/// field not zero"
fn is_no_change(floor: &[u8], change: &[u8]) -> bool {
    if change.len() != 16 {
        return true;
    }
    let change = Record::read(change);
    let changeable = change.kind == 3 || (5..=9).contains(&change.kind);
    !changeable || position(floor, change).is_none() || !unlisted_fields_are_zero(change)
}

/// The floor with the change in it, for a change to which 9 does not apply.
fn changed(floor: &[u8], change: &[u8]) -> Vec<u8> {
    let position = position(floor, Record::read(change)).expect("the floor has the record");
    let start = position * RECORD_BYTES;
    let mut copy = floor.to_vec();
    copy[start..start + RECORD_BYTES].copy_from_slice(change);
    copy
}

/// "A change tries 1 to 7 on the held floor, 9, then 5 to 7 on the changed floor, then 8: the whole
/// changed floor is judged in a copy before one byte is stored."
///
/// Answers that copy, or the refusal. Who has a table and a slice to lend tries 8 and 13 on the copy
/// and stores it then.
pub fn judge(floor: &[u8], change: &[u8]) -> Result<Vec<u8>, u128> {
    let held = refusal(floor);
    if held != SUCCESS {
        return Err(held);
    }
    if is_no_change(floor, change) {
        return Err(9);
    }
    let copy = changed(floor, change);
    match refusal_5_to_7(&copy) {
        SUCCESS => Ok(copy),
        refused => Err(refused),
    }
}

/// The refusal of a change where no table is lent, and the floor after it: "Refusals write nothing."
pub fn change(floor: &[u8], change: &[u8]) -> (u128, Vec<u8>) {
    match judge(floor, change) {
        Ok(changed) => (SUCCESS, changed),
        Err(refused) => (refused, floor.to_vec()),
    }
}
