//! The places where a floor is broken, asked for on a lent slice of any numbers.

use crate::case::Case;
use crate::lent::Lent;
use crate::same::same_answer;
use crate::tally::{Listed, Slice, Tally};
use cases::draw::Draw;
use cases::runs::tables::any_numbers;
use reference::places::{broken_places, places, Place, ALWAYS_SUFFICE, NUMBERS};
use reference::refusals::{refusal, SUCCESS};

/// How many numbers are lent where so many are asked for: as many, fewer, more, none, or what always suffices.
fn lent_length(draw: &mut Draw, asked: usize) -> usize {
    let less = |numbers| asked.saturating_sub(numbers);
    match draw.between(1, 100) {
        1..=35 => asked,
        36..=55 => less(1),
        56..=60 => draw.one_of(&[1, asked / 2, less(NUMBERS)]),
        61..=65 => 0,
        66..=95 => asked + draw.between(1, 40),
        _ => ALWAYS_SUFFICE,
    }
}

/// What a slice of some length is to a broken floor that asks for so many numbers.
fn slice(length: usize, asked: usize) -> Slice {
    match length {
        0 => Slice::Empty,
        _ if length == asked => Slice::Exact,
        _ if length + 1 == asked => Slice::OneShort,
        _ if length < asked => Slice::Shorter,
        ALWAYS_SUFFICE => Slice::AlwaysSuffices,
        _ => Slice::Longer,
    }
}

pub fn compare(case: &mut Case, floor: &[u8], lent: &Lent<u8>) -> Result<(), String> {
    let listed = match refusal(floor) {
        SUCCESS => broken_places(floor),
        _ => Vec::new(),
    };
    let length = lent_length(&mut case.draw, NUMBERS * listed.len());
    let mut right_numbers = any_numbers(&mut case.draw, length);
    let mut numbers = case.lend(&right_numbers);
    let answer = (case.job.calls.places)(lent.numbers(), numbers.numbers_mut());
    let right = places(floor, &mut right_numbers);
    same_answer(answer, right)
        .and_then(|()| lent.holds("floor", floor))
        .and_then(|()| numbers.holds("slice", &right_numbers))
        .map_err(|words| format!("places, {length} numbers lent: {words}"))?;
    case.tally.places_addresses.add(numbers.address());
    count(case.tally, right, &listed, length);
    Ok(())
}

fn count(tally: &mut Tally, (refused, count): (u128, u128), listed: &[Place], length: usize) {
    tally.places.add(match (refused, count) {
        (SUCCESS, 0) => Listed::None,
        (SUCCESS, 1) => Listed::One,
        (SUCCESS, _) => Listed::Several,
        _ => Listed::Refused(refused),
    });
    if !listed.is_empty() {
        tally.slices.add(slice(length, NUMBERS * listed.len()));
    }
    for limit in [1, 2, 4, 8, 16, 32, 64] {
        let of_limit = listed.iter().filter(|place| place.limit == limit);
        match of_limit.count() {
            0 => (),
            count => tally.places_of_limits.add((limit, count > 1)),
        }
    }
}
