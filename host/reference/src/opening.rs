//! Opening a floor with a lent table and the governing slice beside it.

use crate::floor_file::sizes;
use crate::governing;
use crate::refusals::{refusal, SUCCESS};
use crate::table;
use crate::verdict::{verdict, REFUSED};

/// 8: "lent table shorter than 16·((ny+1)nx+(nx+1)ny) numbers", for a floor that is not refused.
fn table_is_too_short(floor: &[u8], table: &[u32]) -> bool {
    table.len() < table::length(sizes(floor))
}

/// 13: "the slice is too short", for a floor that is not refused.
fn governing_is_too_short(floor: &[u8], governing: &[u32]) -> bool {
    governing.len() < governing::length(sizes(floor))
}

/// What is lent beside a floor to which 1 to 7 do not apply: 8, and 13 "tried right after 8".
pub fn refusal_of_lent(floor: &[u8], table: &[u32], governing: &[u32]) -> u128 {
    if table_is_too_short(floor, table) {
        8
    } else if governing_is_too_short(floor, governing) {
        13
    } else {
        SUCCESS
    }
}

/// The whole table is written, and every support with it. "Numbers past the table stay", and those past
/// the slice.
pub fn fill(floor: &[u8], table: &mut [u32], governing: &mut [u32]) {
    let numbers = table::numbers(floor);
    table[..numbers.len()].copy_from_slice(&numbers);
    governing::write(&governing::supports(sizes(floor)), table, governing);
}

/// "Opening a floor tries 1 to 8 and, where none applies, fills the table as under Moments." It "fills"
/// the slice "with the table", and 13 is "tried right after 8".
///
/// Answers the refusal and the verdict. "Refusals write nothing."
pub fn open(floor: &[u8], table: &mut [u32], governing: &mut [u32]) -> (u128, u128) {
    let refused = refusal(floor);
    if refused != SUCCESS {
        return (refused, REFUSED);
    }
    let refused = refusal_of_lent(floor, table, governing);
    if refused != SUCCESS {
        return (refused, REFUSED);
    }
    fill(floor, table, governing);
    (SUCCESS, verdict(floor))
}
