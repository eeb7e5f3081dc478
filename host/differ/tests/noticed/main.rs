//! Wrong libraries in place of the right one: each is found out.

mod changes;
mod clear;
mod equal;
mod looks;
#[path = "../noticing/mod.rs"]
mod noticing;
mod openings;
mod order;
mod places;
mod schedules;
mod slices;
mod stiffness;
mod supports;
mod weak;

use cases::draw::Draw;
use cases::floors::Described;
use cases::runs::Run;
use differ::case::Case;
use differ::job::{Calls, Change, Job, LIBRARY};
use differ::tally::Tally;
use differ::work::Amount;
use differ::{floors, runs, steel, variety};
use gandhrumil::{Answer, Query};
use noticing::noticed;
use std::sync::LazyLock;

const FEW: Amount = Amount {
    floors: 1_050,
    flipped: 0,
    changes: 2_000,
    queries: 2_000,
};

#[track_caller]
fn assert_noticed(part: &str, calls: Calls, words: &str) {
    let noticed = noticed(FEW, part, calls);
    assert!(noticed.contains(words), "{noticed}");
}

/// What is said of the first difference in what is described.
fn noticed_in<T>(
    described: &[T],
    calls: Calls,
    compare: impl Fn(&mut Case, &T) -> Result<(), String>,
) -> String {
    let job = Job {
        calls,
        ..Job::of_the_library(1)
    };
    let mut tally = Tally::default();
    let mut case = Case {
        job: &job,
        draw: Draw::starting_at(job.seed),
        tally: &mut tally,
    };
    let mut compared = described.iter().map(|one| compare(&mut case, one));
    compared.find_map(Result::err).expect("a difference")
}

/// Drawn once for all tests.
static RUNS: LazyLock<Vec<Run>> = LazyLock::new(cases::runs::all);
static FLOORS: LazyLock<Vec<Described>> = LazyLock::new(cases::floors::all);
static SINGLES: LazyLock<Vec<Described>> = LazyLock::new(cases::floors::single::floors);

fn noticed_in_runs(change: Change) -> String {
    let calls = Calls { change, ..LIBRARY };
    noticed_in(&RUNS, calls, runs::replay)
}

fn noticed_in_floors(calls: Calls) -> String {
    noticed_in(&FLOORS, calls, |case, floor| {
        floors::undamaged(case, "described", &floor.bytes)
    })
}

#[track_caller]
fn assert_noticed_in_runs(change: Change, words: &str) {
    let noticed = noticed_in_runs(change);
    assert!(noticed.contains(words), "{noticed}");
}

/// The last number that is lent mostly lies past the floor's.
fn spoil_last(numbers: &mut [u32]) {
    if let Some(last) = numbers.last_mut() {
        *last = !*last;
    }
}

fn spoil_first(numbers: &mut [u32]) {
    if let Some(first) = numbers.first_mut() {
        *first = !*first;
    }
}

/// Of a floor of 4 by 4 bays the last one alone.
fn panel_wrong_in_one_bay(floor: &[u8], x: u64, y: u64) -> Answer {
    let answer = gandhrumil::panel(floor, x, y);
    match (answer.refusal, x, y) {
        (0, 3, 3) => Answer {
            value: answer.value + 1,
            ..answer
        },
        _ => answer,
    }
}

/// A bay read from the lower half of its number.
fn panel_of_32_bits(floor: &[u8], x: u64, y: u64) -> Answer {
    gandhrumil::panel(floor, x as u32 as u64, y)
}

#[test]
fn wrong_panels() {
    let with = |panel| Calls { panel, ..LIBRARY };
    let [one, narrow] = [panel_wrong_in_one_bay, panel_of_32_bits].map(with);
    assert_noticed(
        "floors",
        one,
        "panel 3, 3: the library answers refusal 0 and ",
    );
    assert_noticed("floors", narrow, "right is refusal 10 and 0");
}

/// Off by one mm² for the weakest concrete.
fn steel_not_least(query: Query) -> Answer {
    let answer = gandhrumil::steel(query);
    match (answer.refusal, query.fc) {
        (0, 20) => Answer {
            value: answer.value + 1,
            ..answer
        },
        _ => answer,
    }
}

#[test]
fn wrong_steel() {
    let calls = Calls {
        steel: steel_not_least,
        ..LIBRARY
    };
    assert_noticed("steel queries", calls, "fc: 20, ");
}

/// 0 stands for t less so many mm.
fn steel_by_default_at<const LESS: u64>(query: Query) -> Answer {
    let d = match query.d {
        0 => query.t.saturating_sub(LESS),
        given => given,
    };
    gandhrumil::steel(Query { d, ..query })
}

/// The first is what 0 stood for in 01.
#[test]
fn wrong_default_depths() {
    let described = cases::queries::all();
    for steel in [
        steel_by_default_at::<26>,
        steel_by_default_at::<37>,
        steel_by_default_at::<39>,
    ] {
        let calls = Calls { steel, ..LIBRARY };
        assert_noticed("steel queries", calls, ", d: 0, ");
        let noticed = noticed_in(&described, calls, |case, given| {
            steel::compare(case, given.query)
        });
        assert!(noticed.contains(", d: 0, "), "{noticed}");
    }
}

/// The words are enough to bring the case back.
#[test]
fn a_difference_names_its_case() {
    let calls = Calls {
        steel: steel_not_least,
        ..LIBRARY
    };
    let noticed = noticed(FEW, "steel queries", calls);
    assert!(
        noticed.starts_with("difference: seed 1, steel queries, case 0: Query {"),
        "{noticed}"
    );
}

/// Where nothing is drawn every sort is missed.
#[test]
fn what_never_came_up() {
    let missed = variety::all(&Tally::default());
    for words in [
        "a floor that breaks limit 32",
        "a damaged floor: Refused(8)",
        "a damaged floor: Refused(13)",
        "a floor asked whether it is clear: NoByOnePlace(64)",
        "a floor asked whether it is clear: Refused(7)",
        "a floor asked for its places: Several",
        "a floor asked for its places: Refused(25)",
        "a slice for places: one short",
        "a floor with several places of limit 8",
        "a floor with one place of limit 64",
        "a panel query: refusal 10",
        "12 bays each way",
        "some choice of sides",
        "one floor of a hundred: h − t = 4t",
        "one floor of a hundred: S past 80000",
        "one floor of a hundred: an edge just below 8000",
        "one floor of a hundred: too thin by a weak edge alone",
        "a change: Mended",
        "a change: Refused(9)",
        "a change: Refused(13)",
        "a change of kind 8 that keeps a floor clear, on a wrong table",
        "a change of kind 5 that keeps a floor clear, on a slice that agrees",
        "a change that makes a tie",
        "a steel query: refusal 12",
        "one steel query of twenty: d = 0 told from t − 37",
    ] {
        assert!(missed.iter().any(|one| one == words), "{words}");
    }
}

#[test]
fn what_never_came_up_of_schedules() {
    let missed = variety::all(&Tally::default());
    for words in [
        "a floor asked for its schedule: Written",
        "a floor asked for its schedule: LaterUnbarred",
        "a floor asked for its schedule: UnbarredAlongY",
        "a floor asked for its schedule: Refused(15)",
        "a floor asked for its schedule: Refused(16)",
        "a buffer for a schedule: one short",
        "bars: 16 mm",
        "bars: just enough",
        "a strip without its Area",
        "one schedule of two: bars along x told from t − 27",
        "one schedule of two: bars along y told from t − 37",
        "a schedule at each of 16 addresses",
    ] {
        assert!(missed.iter().any(|one| one == words), "{words}");
    }
}
