//! Changes that store or write what they must not, or do not where they must.

use crate::assert_noticed;
use differ::job::{Calls, Change, LIBRARY};
use gandhrumil::Answer;

fn change_that_stores_a_refused_byte(
    floor: &mut [u8],
    table: &mut [u32],
    governing: &mut [u32],
    change: &[u8],
) -> Answer {
    let answer = gandhrumil::change(floor, table, governing, change);
    if let (5, &[.., byte]) = (answer.refusal, change) {
        floor[floor.len() - 1] = byte ^ 1;
    }
    answer
}

fn change_that_rewrites_everything(
    floor: &mut [u8],
    table: &mut [u32],
    governing: &mut [u32],
    change: &[u8],
) -> Answer {
    let answer = gandhrumil::change(floor, table, governing, change);
    if answer.refusal == 0 {
        gandhrumil::open(floor, table, governing);
    }
    answer
}

fn change_that_rewrites_nothing(
    floor: &mut [u8],
    table: &mut [u32],
    governing: &mut [u32],
    change: &[u8],
) -> Answer {
    gandhrumil::change(floor, &mut table.to_vec(), governing, change)
}

/// Offsets do not alter the verdict.
fn change_that_stores_nothing(
    floor: &mut [u8],
    table: &mut [u32],
    governing: &mut [u32],
    change: &[u8],
) -> Answer {
    let before = floor.to_vec();
    let answer = gandhrumil::change(floor, table, governing, change);
    if change.first() == Some(&9) {
        floor.copy_from_slice(&before);
    }
    answer
}

#[test]
fn wrong_changes() {
    let wrong: [(Change, &str); 4] = [
        (change_that_stores_a_refused_byte, ": floor: at "),
        (change_that_rewrites_everything, ": table: at "),
        (change_that_rewrites_nothing, ": table: at "),
        (change_that_stores_nothing, ": floor: at "),
    ];
    for (change, words) in wrong {
        assert_noticed("changes", Calls { change, ..LIBRARY }, words);
    }
}
