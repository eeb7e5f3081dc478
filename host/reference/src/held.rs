//! A change of a held floor, of the table lent with it and of the governing slice.

use crate::change::judge;
use crate::floor_file::{sizes, Record};
use crate::governing::{self, supports_next_to};
use crate::named::named;
use crate::opening::{fill, refusal_of_lent};
use crate::refusals::SUCCESS;
use crate::table::{numbers, place};
use crate::verdict::{verdict, REFUSED};

/// "Otherwise the records named here get their right value and every other keeps what it held, right
/// or not." Then "only supports next to a written record are written, from the table as it then stands".
fn fill_named(floor: &[u8], table: &mut [u32], governing: &mut [u32], change: Record) {
    let sizes = sizes(floor);
    let numbers = numbers(floor);
    let named = named(change.kind, change.index, sizes);
    for &record in &named {
        table[place(record)].copy_from_slice(&numbers[place(record)]);
    }
    governing::write(&supports_next_to(sizes, &named), table, governing);
}

/// "A change tries 1 to 7 on the held floor, 9, then 5 to 7 on the changed floor, then 8: the whole
/// changed floor is judged in a copy before one byte is stored." 13 is "tried right after 8".
///
/// Answers the refusal and the verdict after. "Refusals write nothing."
pub fn change(
    floor: &mut Vec<u8>,
    table: &mut [u32],
    governing: &mut [u32],
    change: &[u8],
) -> (u128, u128) {
    let changed = match judge(floor, change) {
        Ok(changed) => changed,
        Err(refused) => return (refused, REFUSED),
    };
    let refused = refusal_of_lent(&changed, table, governing);
    if refused != SUCCESS {
        return (refused, REFUSED);
    }
    let (before, after) = (verdict(floor), verdict(&changed));
    *floor = changed;
    if before != 0 || after != 0 {
        // "If the verdict before or after is not 0, the whole table is written."
        fill(floor, table, governing);
    } else {
        fill_named(floor, table, governing, Record::read(change));
    }
    (SUCCESS, after)
}
