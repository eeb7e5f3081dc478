//! Libraries that refuse, count or write otherwise where they are asked for places: "1 to 7, then 25", "A refusal
//! writes nothing, and what lies past the places stays".

use crate::clear::answer;
use crate::{assert_noticed, noticed_in_floors, spoil_first, spoil_last};
use differ::job::{Calls, Places, LIBRARY};
use gandhrumil::{Answer, PLACES_LEN};
use reference::places::NUMBERS;

/// What the right library answers where what is lent always suffices.
fn right(floor: &[u8]) -> (Answer, [u32; PLACES_LEN]) {
    let mut numbers = [0; PLACES_LEN];
    (gandhrumil::places(floor, &mut numbers), numbers)
}

fn writes_though_it_is_short(floor: &[u8], lent: &mut [u32]) -> Answer {
    let answer = gandhrumil::places(floor, lent);
    if answer.refusal == 25 {
        let (_, numbers) = right(floor);
        lent.copy_from_slice(&numbers[..lent.len()]);
    }
    answer
}

/// The last place alone is not written.
fn writes_while_there_is_room(floor: &[u8], lent: &mut [u32]) -> Answer {
    let answer = gandhrumil::places(floor, lent);
    if answer.refusal == 25 {
        let (_, numbers) = right(floor);
        let whole = lent.len() / NUMBERS * NUMBERS;
        lent[..whole].copy_from_slice(&numbers[..whole]);
    }
    answer
}

fn writes_for_a_refused_floor(floor: &[u8], lent: &mut [u32]) -> Answer {
    let answer = gandhrumil::places(floor, lent);
    if (1..=7).contains(&answer.refusal) {
        spoil_first(lent);
    }
    answer
}

fn writes_past_the_places(floor: &[u8], lent: &mut [u32]) -> Answer {
    let answer = gandhrumil::places(floor, lent);
    if answer.refusal == 0 {
        spoil_first(&mut lent[NUMBERS * answer.value as usize..]);
    }
    answer
}

fn writes_the_last_number(floor: &[u8], lent: &mut [u32]) -> Answer {
    let answer = gandhrumil::places(floor, lent);
    if answer.refusal == 0 {
        spoil_last(&mut lent[NUMBERS * answer.value as usize..]);
    }
    answer
}

fn zeros_past_the_places(floor: &[u8], lent: &mut [u32]) -> Answer {
    let answer = gandhrumil::places(floor, lent);
    if answer.refusal == 0 {
        lent[NUMBERS * answer.value as usize..].fill(0);
    }
    answer
}

#[test]
fn wrong_writings() {
    let wrong: [Places; 6] = [
        writes_though_it_is_short,
        writes_while_there_is_room,
        writes_for_a_refused_floor,
        writes_past_the_places,
        writes_the_last_number,
        zeros_past_the_places,
    ];
    for places in wrong {
        let calls = Calls { places, ..LIBRARY };
        let words = "numbers lent: slice: at ";
        assert_noticed("floors", calls, words);
        let noticed = noticed_in_floors(calls);
        assert!(noticed.contains(words), "{noticed}");
    }
}

/// An empty slice is too short for any floor, it seems.
fn tries_25_first(floor: &[u8], lent: &mut [u32]) -> Answer {
    match gandhrumil::places(floor, lent) {
        Answer { refusal: 1..=7, .. } if lent.is_empty() => answer(25, 0),
        right => right,
    }
}

fn asks_for_a_number_more(floor: &[u8], lent: &mut [u32]) -> Answer {
    let before = lent.to_vec();
    let given = gandhrumil::places(floor, lent);
    if given.refusal == 0 && lent.len() == NUMBERS * given.value as usize {
        lent.copy_from_slice(&before);
        return answer(25, 0);
    }
    given
}

/// Whatever the floor.
fn asks_for_what_always_suffices(floor: &[u8], lent: &mut [u32]) -> Answer {
    let given = right(floor).0;
    match given.refusal == 0 && lent.len() < PLACES_LEN {
        true => answer(25, 0),
        false => gandhrumil::places(floor, lent),
    }
}

/// A last place that is a number short is cut off, and the call is taken.
fn lists_what_fits(floor: &[u8], lent: &mut [u32]) -> Answer {
    match gandhrumil::places(floor, lent) {
        Answer { refusal: 25, .. } => {
            let (given, numbers) = right(floor);
            lent.copy_from_slice(&numbers[..lent.len()]);
            given
        }
        right => right,
    }
}

fn counts_numbers(floor: &[u8], lent: &mut [u32]) -> Answer {
    let given = gandhrumil::places(floor, lent);
    answer(given.refusal, NUMBERS as u32 * given.value)
}

fn counts_what_is_refused(floor: &[u8], lent: &mut [u32]) -> Answer {
    match gandhrumil::places(floor, lent) {
        Answer { refusal: 25, .. } => answer(25, right(floor).0.value),
        right => right,
    }
}

fn verdict_of_a_refused_floor(floor: &[u8], lent: &mut [u32]) -> Answer {
    match gandhrumil::places(floor, lent) {
        Answer { refusal: 0, value } => answer(0, value),
        Answer { refusal, .. } => answer(refusal, 255),
    }
}

#[test]
fn wrong_answers() {
    let wrong: [(Places, &str); 7] = [
        (tries_25_first, " refusal 25 and 0, right is refusal "),
        (
            asks_for_a_number_more,
            " refusal 25 and 0, right is refusal 0 and ",
        ),
        (
            asks_for_what_always_suffices,
            " refusal 25 and 0, right is refusal 0 and ",
        ),
        (lists_what_fits, ", right is refusal 25 and 0"),
        (counts_numbers, ", right is refusal 0 and "),
        (counts_what_is_refused, ", right is refusal 25 and 0"),
        (verdict_of_a_refused_floor, " and 255, right is refusal "),
    ];
    for (places, words) in wrong {
        let calls = Calls { places, ..LIBRARY };
        assert_noticed("floors", calls, words);
        let noticed = noticed_in_floors(calls);
        assert!(
            noticed.contains(": places, ") && noticed.contains(words),
            "{noticed}"
        );
    }
}

/// While a floor is changed, too.
#[test]
fn wrong_answers_of_changed_floors() {
    for (places, words) in [
        (counts_numbers as Places, "right is refusal 0 and "),
        (tries_25_first, "right is refusal "),
        (zeros_past_the_places, "numbers lent: slice: at "),
    ] {
        assert_noticed("changes", Calls { places, ..LIBRARY }, words);
    }
}
