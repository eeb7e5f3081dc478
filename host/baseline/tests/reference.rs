//! The baseline held to the reference: every answer, and all that is left in floor, table and slice.

use baseline::Answer;
use cases::draw::Draw;
use cases::floors::drawn::{self, any_sides, Wanted};
use cases::floors::{self, LAYOUTS};
use cases::queries;
use cases::runs::{self, play, Played, Run};
use reference::floor_file::RECORD_BYTES;
use reference::panel;
use reference::places::{places, ALWAYS_SUFFICE, NUMBERS};
use reference::schedule;
use reference::steel;
use reference::verdict;
use std::collections::BTreeMap;

fn answer(given: Answer) -> (u128, u128) {
    (given.refusal.into(), given.value.into())
}

/// "Yes exactly when the full verdict is 0; a refused floor answers no with its number." (02, Four)
fn hold_clear(description: &str, floor: &[u8]) {
    let (refused, verdict) = verdict::judge(floor);
    let right = (refused, (verdict == 0).into());
    assert_eq!(answer(baseline::clear(floor)), right, "{description}");
}

/// The answer, the places and what lies past them, in a slice of so many numbers. Answers how many places there are.
fn hold_places(description: &str, floor: &[u8], length: usize) -> usize {
    let (mut given, mut right) = (vec![u32::MAX; length], vec![u32::MAX; length]);
    let (refused, count) = places(floor, &mut right);
    assert_eq!(
        answer(baseline::places(floor, &mut given)),
        (refused, count),
        "{description}, {length} numbers"
    );
    assert!(given == right, "{description}, {length} numbers");
    count as usize
}

/// Enough, a number too few, more than enough, none.
fn hold_places_in_every_slice(description: &str, floor: &[u8]) {
    let asked = NUMBERS * hold_places(description, floor, ALWAYS_SUFFICE);
    for length in [asked, asked.saturating_sub(1), asked + 1, asked + 40, 0] {
        hold_places(description, floor, length);
    }
}

/// The answer, the schedule and what lies past it, in a buffer of so many bytes. Answers the refusal and how many
/// records there are.
fn hold_schedule(description: &str, floor: &[u8], length: usize) -> (u128, u128) {
    let (mut given, mut right) = (vec![u8::MAX; length], vec![u8::MAX; length]);
    let (refused, count) = schedule::schedule(floor, &mut right);
    assert_eq!(
        answer(baseline::schedule(floor, &mut given)),
        (refused, count),
        "{description}, {length} bytes"
    );
    assert!(given == right, "{description}, {length} bytes");
    (refused, count)
}

/// Enough, a byte too few, more than enough, none. Answers the refusal where there are enough.
fn hold_schedule_in_every_buffer(description: &str, floor: &[u8]) -> u128 {
    let (refused, _) = hold_schedule(description, floor, schedule::ALWAYS_SUFFICE);
    let asked = match refused {
        1..=7 => 0,
        _ => schedule::length(floor),
    };
    for length in [asked, asked.saturating_sub(1), asked + 1, asked + 40, 0] {
        hold_schedule(description, floor, length);
    }
    refused
}

fn hold_judged(description: &str, floor: &[u8]) {
    hold_clear(description, floor);
    hold_places(description, floor, ALWAYS_SUFFICE);
    hold_schedule(description, floor, schedule::ALWAYS_SUFFICE);
}

/// Every floor on the way is asked whether it is clear, and for its places.
fn played(run: &Run) -> Played {
    let (mut floor, mut table) = (run.floor.clone(), run.table.clone());
    let mut governing = run.governing.clone();
    hold_judged(&run.description, &floor);
    let opening = run
        .opens
        .then(|| answer(baseline::open(&floor, &mut table, &mut governing)));
    let changes = run.changes.iter();
    let changes = changes.map(|change| {
        let given = baseline::change(&mut floor, &mut table, &mut governing, change);
        hold_judged(&run.description, &floor);
        answer(given)
    });
    Played {
        opening,
        changes: changes.collect(),
        floor,
        table,
        governing,
    }
}

fn hold_run(run: &Run) {
    assert!(played(run) == play(run), "{}", run.description);
}

/// Opens a floor on a table and a slice of numbers that none of its records has, then leaves it as it is. 12
/// by 12 bays ask for 4,992 and 1,690.
fn opening(description: &str, floor: &[u8]) -> Run {
    Run {
        description: description.to_string(),
        opens: true,
        floor: floor.to_vec(),
        table: vec![u32::MAX; 5_000],
        governing: vec![u32::MAX; 1_700],
        changes: Vec::new(),
    }
}

fn hold_panels(description: &str, floor: &[u8]) {
    for (x, y) in (0..14).flat_map(|x| (0..14).map(move |y| (x, y))) {
        let given = answer(baseline::panel(floor, x, y));
        let right = panel::panel(floor, x.into(), y.into());
        assert_eq!(given, right, "{description}, panel {x}, {y}");
    }
}

#[test]
fn every_floor() {
    for floor in floors::all() {
        hold_run(&opening(&floor.description, &floor.bytes));
        hold_panels(&floor.description, &floor.bytes);
        hold_places_in_every_slice(&floor.description, &floor.bytes);
        hold_schedule_in_every_buffer(&floor.description, &floor.bytes);
    }
}

#[test]
fn floors_broken_in_one_place() {
    for floor in floors::single::floors() {
        hold_clear(&floor.description, &floor.bytes);
        hold_places_in_every_slice(&floor.description, &floor.bytes);
    }
}

#[test]
fn every_run() {
    runs::all().iter().for_each(hold_run);
}

fn hold_query(description: &str, query: steel::Query) {
    let [m, b, t, d, fc, fy] = query.numbers().map(|number| number as u64);
    let given = answer(baseline::steel(baseline::Query { m, b, t, d, fc, fy }));
    assert_eq!(given, steel::answer(query), "{description}, {query:?}");
}

#[test]
fn every_query() {
    for given in queries::all() {
        hold_query(&given.description, given.query);
    }
}

fn any_floor(draw: &mut Draw) -> Vec<u8> {
    let (layout, _) = draw.one_of(&LAYOUTS);
    let wanted = Wanted {
        nx: draw.between(1, 6),
        ny: draw.between(1, 6),
        layout,
        sides: any_sides(draw),
    };
    drawn::floor(draw, wanted).bytes()
}

/// Some of a floor's own records, most of them with a byte altered.
fn altered_records(draw: &mut Draw, floor: &[u8]) -> Vec<Vec<u8>> {
    let mut changes = Vec::new();
    for record in floor.chunks(RECORD_BYTES) {
        let mut change = record.to_vec();
        change[draw.between(0, 15)] ^= draw.one_of(&[0, 1, 2, 4, 20]);
        if draw.percent(20) {
            changes.push(change);
        }
    }
    changes
}

/// Floors that are drawn, half of them with a byte altered, and changed again and again.
#[test]
fn floors_drawn_and_altered() {
    let mut draw = Draw::starting_at(31);
    for number in 0..3_000 {
        let mut floor = any_floor(&mut draw);
        let changes = altered_records(&mut draw, &floor);
        let place = draw.between(0, floor.len() - 1);
        floor[place] ^= draw.one_of(&[0, 0, 0, 1, 4, 20]);
        hold_run(&Run {
            changes,
            ..opening(&format!("drawn {number}"), &floor)
        });
    }
}

/// Clear floors that are drawn: some have a schedule, some are refused 17.
#[test]
fn schedules_drawn() {
    let mut draw = Draw::starting_at(33);
    let mut answers = BTreeMap::new();
    for number in 0..1_000 {
        let (layout, _) = LAYOUTS[number % 3];
        let wanted = Wanted {
            nx: draw.between(3, 6),
            ny: draw.between(3, 6),
            layout,
            sides: any_sides(&mut draw),
        };
        let floor = drawn::clear(&mut draw, wanted).bytes();
        let refused = hold_schedule_in_every_buffer(&format!("drawn {number}"), &floor);
        *answers.entry(refused).or_insert(0) += 1;
    }
    assert!(answers.keys().eq(&[0, 17]), "{answers:?}");
    assert!(answers.values().all(|&floors| floors > 200), "{answers:?}");
}

#[test]
fn queries_drawn() {
    let mut draw = Draw::starting_at(32);
    for number in 0..3_000 {
        let most = draw.one_of(&[3_000_000, 100_000_000, 2_000_000_000]);
        let t = draw.between(90, 500);
        let deep = draw.between(50, t - 25);
        let query = steel::Query {
            m: draw.between(0, most),
            b: draw.between(1, 12_000),
            t,
            d: draw.one_of(&[0, deep]),
            fc: draw.between(20, 60),
            fy: draw.one_of(&[280, 420, 520]),
        };
        hold_query(&format!("drawn {number}"), query);
    }
}
