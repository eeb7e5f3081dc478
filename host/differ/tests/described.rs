//! The inputs that are described one by one: the library, and the page's, held against the reference on each.

use cases::draw::Draw;
use cases::runs::tables::any_numbers;
use cases::runs::Run;
use differ::case::Case;
use differ::job::{Calls, Job, LIBRARY};
use differ::page::{can_be_tried, PAGE};
use differ::tally::Tally;
use differ::{floors, runs, steel};

/// Compares each with a description.
fn compare_all<T>(
    calls: Calls,
    described: &[T],
    description: fn(&T) -> &str,
    compare: impl Fn(&mut Case, &T) -> Result<(), String>,
) -> Tally {
    let job = Job {
        calls,
        ..Job::of_the_library(1)
    };
    let mut tally = Tally::default();
    let mut case = Case {
        job: &job,
        draw: Draw::starting_at(job.seed),
        tally: &mut tally,
    };
    for one in described {
        let compared = compare(&mut case, one);
        compared.unwrap_or_else(|words| panic!("{}: {words}", description(one)));
    }
    tally
}

/// Up to 1,000,016 bytes.
fn floors_and_inputs_longer_than_any_floor(calls: Calls) {
    let mut described = cases::floors::all();
    described.extend(cases::floors::single::floors());
    described.extend(cases::floors::long::inputs());
    let tally = compare_all(
        calls,
        &described,
        |floor| &floor.description,
        |case, floor| floors::undamaged(case, "described", &floor.bytes),
    );
    assert_eq!(tally.floors(), described.len() as u64);
    assert_eq!(tally.clear.total(), described.len() as u64);
    assert_eq!(tally.places.total(), described.len() as u64);
    assert_eq!(tally.schedules.total(), described.len() as u64);
}

/// Each floor file is opened, with room enough for any table and slice, then changed where a change comes with it.
fn cases_of_every_refusal(calls: Calls) {
    let described = cases::refusals::all();
    let tally = compare_all(
        calls,
        &described,
        |listed| &listed.description,
        |case, listed| {
            let table = any_numbers(&mut case.draw, 5_000);
            let governing = any_numbers(&mut case.draw, 1_700);
            let run = Run {
                description: String::new(),
                opens: true,
                floor: listed.floor.clone(),
                table,
                governing,
                changes: listed.change.iter().cloned().collect(),
            };
            runs::replay(case, &run)
        },
    );
    let changes = described.iter().filter(|listed| listed.change.is_some());
    assert_eq!(tally.changes.total(), changes.count() as u64);
    assert!(tally.panels.total() > described.len() as u64);
    assert!(tally.clear.total() >= described.len() as u64);
    assert_eq!(tally.schedules.total(), described.len() as u64);
    assert_eq!(tally.places.total(), tally.clear.total());
}

fn changes(calls: Calls) {
    let described = cases::runs::all();
    let tally = compare_all(calls, &described, |run| &run.description, runs::replay);
    let changes: usize = described.iter().map(|run| run.changes.len()).sum();
    assert_eq!(tally.changes.total(), changes as u64);
    assert!(tally.clear.total() > changes as u64);
    assert_eq!(tally.schedules.total(), described.len() as u64);
    assert_eq!(tally.places.total(), tally.clear.total());
}

fn steel_queries(calls: Calls) {
    let described = cases::queries::all();
    let tally = compare_all(
        calls,
        &described,
        |given| &given.description,
        |case, given| steel::compare(case, given.query),
    );
    assert_eq!(tally.steel.total(), described.len() as u64);
}

macro_rules! of_both_libraries {
    ($($name:ident)*) => {$(
        mod $name {
            use super::*;

            #[test]
            fn library() {
                super::$name(LIBRARY);
            }

            #[test]
            fn page() {
                if can_be_tried() {
                    super::$name(PAGE);
                }
            }
        }
    )*};
}

of_both_libraries! {
    floors_and_inputs_longer_than_any_floor
    cases_of_every_refusal
    changes
    steel_queries
}
