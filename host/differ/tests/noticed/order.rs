//! 13 before 8, where it is "tried right after 8".

use crate::{assert_noticed, assert_noticed_in_runs};
use differ::job::{Calls, LIBRARY};
use gandhrumil::Answer;
use reference::floor_file::sizes;
use reference::governing;

/// Where the slice is short, whatever the table.
fn with_13_first(answer: Answer, floor: &[u8], governing: &[u32]) -> Answer {
    match answer.refusal {
        8 if governing.len() < governing::length(sizes(floor)) => Answer {
            refusal: 13,
            ..answer
        },
        _ => answer,
    }
}

fn open_that_tries_13_first(floor: &[u8], table: &mut [u32], governing: &mut [u32]) -> Answer {
    with_13_first(gandhrumil::open(floor, table, governing), floor, governing)
}

fn change_that_tries_13_first(
    floor: &mut [u8],
    table: &mut [u32],
    governing: &mut [u32],
    change: &[u8],
) -> Answer {
    let answer = gandhrumil::change(floor, table, governing, change);
    with_13_first(answer, floor, governing)
}

#[test]
fn a_wrong_order() {
    let words = "the library answers refusal 13 and 255, right is refusal 8 and 255";
    let open = open_that_tries_13_first;
    assert_noticed("floors", Calls { open, ..LIBRARY }, words);
    assert_noticed_in_runs(change_that_tries_13_first, words);
}
