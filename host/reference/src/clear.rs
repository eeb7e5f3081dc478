//! "Only tell me whether it is clear." (02, Four)

use crate::refusals::{refusal, SUCCESS};
use crate::verdict::verdict;

/// "a yes or no"
pub const YES: u128 = 1;
pub const NO: u128 = 0;

/// "Yes exactly when the full verdict is 0": so all of it is asked here, and nothing "stops at the first
/// broken limit".
fn yes_or_no(floor: &[u8]) -> u128 {
    match verdict(floor) {
        0 => YES,
        _ => NO,
    }
}

/// "a refused floor answers no with its number. There is no table here, so only 1 to 7 are tried."
///
/// Answers the refusal and the yes or no.
pub fn clear(floor: &[u8]) -> (u128, u128) {
    match refusal(floor) {
        SUCCESS => (SUCCESS, yes_or_no(floor)),
        refused => (refused, NO),
    }
}
