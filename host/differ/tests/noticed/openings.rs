//! Openings that answer or write what they must not.

use crate::{assert_noticed, spoil_first, spoil_last};
use differ::job::{Calls, Open, LIBRARY};
use gandhrumil::Answer;

fn open_without_limit_32(floor: &[u8], table: &mut [u32], governing: &mut [u32]) -> Answer {
    let answer = gandhrumil::open(floor, table, governing);
    match answer.refusal {
        0 => Answer {
            value: answer.value & !32,
            ..answer
        },
        _ => answer,
    }
}

fn open_that_writes_past_the_table(
    floor: &[u8],
    table: &mut [u32],
    governing: &mut [u32],
) -> Answer {
    let answer = gandhrumil::open(floor, table, governing);
    if answer.refusal == 0 {
        spoil_last(table);
    }
    answer
}

fn open_that_writes_past_the_slice(
    floor: &[u8],
    table: &mut [u32],
    governing: &mut [u32],
) -> Answer {
    let answer = gandhrumil::open(floor, table, governing);
    if answer.refusal == 0 {
        spoil_last(governing);
    }
    answer
}

fn open_that_writes_the_table_though_it_refuses(
    floor: &[u8],
    table: &mut [u32],
    governing: &mut [u32],
) -> Answer {
    let answer = gandhrumil::open(floor, table, governing);
    if answer.refusal == 8 {
        spoil_first(table);
    }
    answer
}

fn open_that_fills_the_table_before_it_tries_13(
    floor: &[u8],
    table: &mut [u32],
    governing: &mut [u32],
) -> Answer {
    let answer = gandhrumil::open(floor, table, governing);
    if answer.refusal == 13 {
        gandhrumil::open(floor, table, &mut [0; 1_690]);
    }
    answer
}

fn open_that_writes_the_slice_though_it_refuses(
    floor: &[u8],
    table: &mut [u32],
    governing: &mut [u32],
) -> Answer {
    let answer = gandhrumil::open(floor, table, governing);
    if answer.refusal != 0 {
        spoil_first(governing);
    }
    answer
}

#[test]
fn wrong_openings() {
    let wrong: [(Open, &str); 6] = [
        (
            open_without_limit_32,
            "opening: the library answers refusal 0 and ",
        ),
        (open_that_writes_past_the_table, "opening: table: at "),
        (open_that_writes_past_the_slice, "opening: governing: at "),
        (
            open_that_writes_the_table_though_it_refuses,
            "opening: table: at 0 the library leaves ",
        ),
        (
            open_that_fills_the_table_before_it_tries_13,
            "opening: table: at 0 the library leaves ",
        ),
        (
            open_that_writes_the_slice_though_it_refuses,
            "opening: governing: at 0 the library leaves ",
        ),
    ];
    for (open, words) in wrong {
        assert_noticed("floors", Calls { open, ..LIBRARY }, words);
    }
}
