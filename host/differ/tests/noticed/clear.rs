//! Libraries that give another answer than yes or no and a number (02, Four).

use crate::{assert_noticed, noticed_in, noticed_in_floors, SINGLES};
use cases::floors::Described;
use differ::case::Case;
use differ::clear;
use differ::job::{Calls, LIBRARY};
use gandhrumil::Answer;
use reference::floor_file::Record;

type Clear = fn(&[u8]) -> Answer;

pub fn answer(refusal: u32, value: u32) -> Answer {
    Answer { refusal, value }
}

/// Asked whether it is clear, and nothing more.
pub fn asked(case: &mut Case, floor: &Described) -> Result<(), String> {
    let lent = case.lend(&floor.bytes);
    let compared = clear::compare(case, &floor.bytes, &lent);
    compared.map_err(|words| format!("{}: {words}", floor.description))
}

fn yes_for_a_refused_floor(floor: &[u8]) -> Answer {
    match gandhrumil::clear(floor) {
        Answer { refusal: 0, value } => answer(0, value),
        Answer { refusal, .. } => answer(refusal, 1),
    }
}

fn verdict_of_a_refused_floor(floor: &[u8]) -> Answer {
    match gandhrumil::clear(floor) {
        Answer { refusal: 0, value } => answer(0, value),
        Answer { refusal, .. } => answer(refusal, 255),
    }
}

fn number_dropped(floor: &[u8]) -> Answer {
    answer(0, gandhrumil::clear(floor).value)
}

/// A table that is not there is too short.
fn table_asked_for(floor: &[u8]) -> Answer {
    match gandhrumil::clear(floor) {
        Answer { refusal: 0, .. } => answer(8, 0),
        refused => refused,
    }
}

fn yes_and_no_exchanged(floor: &[u8]) -> Answer {
    match gandhrumil::clear(floor) {
        Answer { refusal: 0, value } => answer(0, 1 - value),
        refused => refused,
    }
}

#[test]
fn wrong_answers() {
    let wrong: [(Clear, &str); 5] = [
        (yes_for_a_refused_floor, " and 1, right is refusal "),
        (verdict_of_a_refused_floor, " and 255, right is refusal "),
        (number_dropped, " refusal 0 and 0, right is refusal "),
        (table_asked_for, " refusal 8 and 0, right is refusal 0 and "),
        (
            yes_and_no_exchanged,
            " refusal 0 and 0, right is refusal 0 and 1",
        ),
    ];
    for (clear, words) in wrong {
        let calls = Calls { clear, ..LIBRARY };
        assert_noticed("floors", calls, words);
        let noticed = noticed_in_floors(calls);
        assert!(noticed.contains(words), "{noticed}");
    }
}

/// The loads are read before all else, and a no by them given without the number.
fn loads_first<const NUMBER: u32>(floor: &[u8]) -> Answer {
    let right = gandhrumil::clear(floor);
    let heavy = |loads: &[u8]| Record::read(loads).b > 2 * Record::read(loads).a;
    match floor.get(32..48) {
        Some(loads) if right.refusal == NUMBER && heavy(loads) => answer(0, 0),
        _ => right,
    }
}

#[test]
fn a_limit_before_a_number() {
    for clear in [
        loads_first::<1>,
        loads_first::<2>,
        loads_first::<3>,
        loads_first::<4>,
        loads_first::<5>,
        loads_first::<6>,
        loads_first::<7>,
    ] {
        let noticed = noticed_in(&SINGLES, Calls { clear, ..LIBRARY }, asked);
        let words = " refusal 0 and 0, right is refusal ";
        assert!(noticed.contains(words), "{noticed}");
    }
}

/// While a floor is changed, too.
#[test]
fn wrong_answers_of_changed_floors() {
    let calls = Calls {
        clear: yes_and_no_exchanged,
        ..LIBRARY
    };
    assert_noticed(
        "changes",
        calls,
        "clear: the library answers refusal 0 and 0",
    );
    let calls = Calls {
        clear: number_dropped,
        ..LIBRARY
    };
    assert_noticed(
        "changes",
        calls,
        "clear: the library answers refusal 0 and 0, right is refusal ",
    );
}
