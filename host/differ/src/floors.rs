//! Floors, each opened on a lent table and a governing slice of any numbers, asked whether it is clear and where it is
//! broken, for its bar schedule, and for every panel.

mod bars;
mod beams;
mod damage;
mod drawn;
mod edges;
pub mod flips;
mod single;
pub mod weak;

pub use damage::damaged;
pub use drawn::floor;

use crate::case::Case;
use crate::clear;
use crate::panels;
use crate::places;
use crate::same::{hex, same_answer};
use crate::schedules;
use crate::tally::{Counts, Opened, Tally};
use cases::draw::Draw;
use cases::floors::all_broken::all_broken;
use cases::floors::scattered::scattered;
use cases::floors::{tied, LAYOUTS};
use cases::runs::tables::any_numbers;
use floor::Floor;
use reference::floor_file::{records_of_kind, sizes, Sizes};
use reference::layout::layout;
use reference::opening::open;
use reference::refusals::{refusal, SUCCESS};
use reference::{governing, span, table};

/// Floors in a case: as drawn, at the edge of a limit and past it, at an edge of beams and past it, with an outer
/// line just strong enough and just too weak, with a tie, damaged, clear but for one place, broken here and there,
/// broken everywhere, just barred and just not by loads, and by a beam.
pub const FLOORS: u64 = 4 + 2 + 2 + 2 + 1 + 2 + 2 + 1 + 1 + 2 + 2;

pub fn case(case: &mut Case) -> Result<(), String> {
    let drawn: [_; 4] = std::array::from_fn(|_| floor(&mut case.draw));
    for floor in &drawn {
        undamaged(case, "as drawn", &floor.bytes())?;
    }
    let (limit, at, past) = edges::edge(&mut case.draw, &drawn[0]);
    undamaged(case, &format!("at the edge, {limit}"), &at.bytes())?;
    undamaged(case, &format!("past the edge, {limit}"), &past.bytes())?;
    let (edge, at, past) = beams::edge(&mut case.draw);
    undamaged(case, &format!("beams at the edge, {edge}"), &at.bytes())?;
    undamaged(case, &format!("beams past the edge, {edge}"), &past.bytes())?;
    let (strong, weak) = weak::edge(&mut case.draw);
    undamaged(case, "with an edge just strong enough", &strong.bytes())?;
    undamaged(case, "with an edge just too weak", &weak.bytes())?;
    let tied = tied::floor(&mut case.draw);
    undamaged(case, "with a tie", &tied.bytes())?;
    for floor in &drawn[2..] {
        let (words, bytes) = damaged(&mut case.draw, &floor.bytes());
        spoilt(case, words, &bytes)?;
    }
    for _ in 0..2 {
        let (one, floor) = single::single(&mut case.draw);
        clear_but_for_one(case, &format!("clear but for {one:?}"), &floor.bytes())?;
    }
    let [here_and_there, everywhere] = broken_floors(&mut case.draw);
    broken(case, "broken here and there", &here_and_there.bytes())?;
    broken(case, "broken everywhere", &everywhere.bytes())?;
    for (words, edge) in [
        ("loads", bars::by_load(&mut case.draw)),
        ("a beam", bars::by_beam(&mut case.draw)),
    ] {
        let (at, past) = edge;
        for_bars(case, &format!("just barred by {words}"), &at.bytes())?;
        for_bars(case, &format!("just not barred by {words}"), &past.bytes())?;
    }
    Ok(())
}

fn broken_floors(draw: &mut Draw) -> [Floor; 2] {
    let (layout, _) = draw.one_of(&LAYOUTS);
    let here_and_there = drawn::bays(draw);
    let (nx, ny) = drawn::bays(draw);
    let everywhere = all_broken(nx, ny);
    let everywhere = match draw.percent(50) {
        true => everywhere.transposed(),
        false => everywhere,
    };
    [scattered(draw, here_and_there, layout), everywhere]
}

/// A table and a governing slice of any numbers: mostly as many as the floor asks for and a tail of some
/// more, now and then too few in one of them or in both.
pub fn lent_numbers(draw: &mut Draw, floor: &[u8]) -> (Vec<u32>, Vec<u32>) {
    let (spans, supports) = match refusal(floor) {
        SUCCESS => (table::length(sizes(floor)), governing::length(sizes(floor))),
        _ => (draw.between(0, 600), draw.between(0, 300)),
    };
    let short = match draw.between(1, 100) {
        1..=2 => (true, false),
        3..=4 => (true, true),
        5..=8 => (false, true),
        _ => (false, false),
    };
    let of_table = lent_length(draw, spans, span::NUMBERS, short.0);
    let of_slice = lent_length(draw, supports, governing::NUMBERS, short.1);
    (any_numbers(draw, of_table), any_numbers(draw, of_slice))
}

/// How many numbers are lent where so many are asked for, in records of so many.
fn lent_length(draw: &mut Draw, asked: usize, in_a_record: usize, short: bool) -> usize {
    let less = |numbers| asked.saturating_sub(numbers);
    match draw.between(1, 100) {
        _ if short => draw.one_of(&[0, 1, asked / 2, less(in_a_record), less(1)]),
        1..=16 => asked,
        _ => asked + draw.between(1, 40),
    }
}

pub fn undamaged(case: &mut Case, words: &str, floor: &[u8]) -> Result<(), String> {
    let opened = compare(case, words, floor)?;
    case.tally.undamaged.add(opened);
    Ok(())
}

/// Counted apart: none of them is clear.
fn clear_but_for_one(case: &mut Case, words: &str, floor: &[u8]) -> Result<(), String> {
    let opened = compare(case, words, floor)?;
    case.tally.single.add(opened);
    Ok(())
}

/// Counted apart, too.
fn broken(case: &mut Case, words: &str, floor: &[u8]) -> Result<(), String> {
    let opened = compare(case, words, floor)?;
    case.tally.scattered.add(opened);
    Ok(())
}

/// Counted apart: most are clear.
fn for_bars(case: &mut Case, words: &str, floor: &[u8]) -> Result<(), String> {
    let opened = compare(case, words, floor)?;
    case.tally.for_bars.add(opened);
    Ok(())
}

/// Counted apart from the floors that somebody drew.
pub fn spoilt(case: &mut Case, words: &str, floor: &[u8]) -> Result<(), String> {
    let opened = compare(case, words, floor)?;
    case.tally.damaged.add(opened);
    Ok(())
}

fn compare(case: &mut Case, words: &str, floor: &[u8]) -> Result<Opened, String> {
    let (mut right_table, mut right_slice) = lent_numbers(&mut case.draw, floor);
    let lent = case.lend(floor);
    let (mut table, mut slice) = (case.lend(&right_table), case.lend(&right_slice));
    let open_call = case.job.calls.open;
    let answer = open_call(lent.numbers(), table.numbers_mut(), slice.numbers_mut());
    let right = open(floor, &mut right_table, &mut right_slice);
    same_answer(answer, right)
        .and_then(|()| lent.holds("floor", floor))
        .and_then(|()| table.holds("table", &right_table))
        .and_then(|()| slice.holds("governing", &right_slice))
        .map_err(|words| format!("opening: {words}"))
        .and_then(|()| clear::compare(case, floor, &lent))
        .and_then(|()| places::compare(case, floor, &lent))
        .and_then(|()| schedules::compare(case, floor, &lent))
        .and_then(|()| panels::compare(case, floor, &lent))
        .map_err(|error| format!("floor {words}: {error}\n{}", hex(floor)))?;
    case.tally.floor_addresses.add(lent.address());
    case.tally.table_addresses.add(table.address());
    case.tally.governing_addresses.add(slice.address());
    Ok(counted(case.tally, floor, right))
}

fn counted(tally: &mut Tally, floor: &[u8], (refused, verdict): (u128, u128)) -> Opened {
    if refused != SUCCESS {
        return Opened::Refused(refused);
    }
    let Sizes { nx, ny, .. } = sizes(floor);
    tally.bays.add((nx, ny));
    beams::sorts(floor)
        .into_iter()
        .chain(weak::sorts(floor))
        .for_each(|sort| tally.beams.add(sort));
    count_limits(&mut tally.limits, verdict);
    if verdict != 0 {
        return Opened::Broken;
    }
    tally.layouts.add(layout_in_words(floor));
    tally.sides.add(records_of_kind(floor, 4)[0].c);
    Opened::Clear
}

fn count_limits(limits: &mut Counts<u128>, verdict: u128) {
    for limit in [1, 2, 4, 8, 16, 32, 64] {
        if verdict & limit != 0 {
            limits.add(limit);
        }
    }
}

fn layout_in_words(floor: &[u8]) -> &'static str {
    let found = LAYOUTS.iter().find(|(one, _)| layout(floor) == Some(*one));
    found.expect("refusal 7 applies").1
}
