//! Batches of what is described one by one: floors and changes that each show one thing, runs of changes, floors broken
//! in one place, here and there or everywhere, floors to schedule bars of, steel queries.

use crate::stream::{Batch, Call, Lent, LONGEST_GOVERNING, LONGEST_TABLE};
use cases::floors::{all_broken, scattered, schedules, single, Described};
use cases::queries;
use cases::refusals::{self, Case};
use cases::runs::{self, Run};
use gandhrumil::Query;
use reference::places::{self, broken_places};
use reference::refusals::{refusal, SUCCESS};
use reference::schedule;

fn of_case(case: Case) -> Batch {
    // As many numbers as any floor of that length asks for, and more.
    let table = vec![7; LONGEST_TABLE.min(2 * case.floor.len())];
    let governing = vec![8; LONGEST_GOVERNING.min(case.floor.len())];
    let mut batch = Batch::new(Lent {
        floor: case.floor,
        table,
        governing,
    });
    batch.make(case.change.map_or(Call::Open, Call::Change));
    batch.make(Call::Clear);
    batch.make(Call::Places(vec![9; 6]));
    batch.make(Call::Schedule(vec![9; 6]));
    batch.show();
    batch
}

fn of_run(run: Run) -> Batch {
    let mut batch = Batch::new(Lent {
        floor: run.floor,
        table: run.table,
        governing: run.governing,
    });
    if run.opens {
        batch.make(Call::Open);
    }
    for change in run.changes {
        batch.make(Call::Change(change));
        batch.make(Call::Clear);
    }
    batch.make(Call::Places(vec![9; 40]));
    batch.show();
    batch
}

/// Asked whether they are clear and for their places, and nothing more. No number is left past the places, two are,
/// the last place lacks a number.
fn of_broken() -> Vec<Batch> {
    let floors = [single::floors(), scattered::floors(), all_broken::floors()].concat();
    let batch = |floor: Described| {
        let mut batch = Batch::new(Lent::of(&floor.bytes, &[], &[]));
        batch.make(Call::Clear);
        let asked = match refusal(&floor.bytes) {
            SUCCESS => places::NUMBERS * broken_places(&floor.bytes).len(),
            _ => 0,
        };
        for length in [asked, asked + 2, asked.saturating_sub(1)] {
            batch.make(Call::Places(vec![9; length]));
        }
        batch
    };
    floors.into_iter().map(batch).collect()
}

/// On a buffer with a byte past the schedule, and on one that lacks a byte.
fn of_bars() -> Vec<Batch> {
    let batch = |floor: Described| {
        let mut batch = Batch::new(Lent::of(&floor.bytes, &[], &[]));
        let asked = schedule::length(&floor.bytes);
        for length in [asked + 1, asked - 1] {
            batch.make(Call::Schedule(vec![9; length]));
        }
        batch
    };
    schedules::floors().into_iter().map(batch).collect()
}

fn of_query(query: reference::steel::Query) -> Call {
    let [m, b, t, d, fc, fy] = query.numbers().map(|number| u64::try_from(number).unwrap());
    Call::Steel(Query { m, b, t, d, fc, fy })
}

pub fn batches() -> Vec<Batch> {
    let mut queries_alone = Batch::new(Lent::default());
    for given in queries::all() {
        queries_alone.make(of_query(given.query));
    }
    let cases = refusals::all().into_iter().map(of_case);
    let runs = runs::all().into_iter().map(of_run);
    cases
        .chain(runs)
        .chain(of_broken())
        .chain(of_bars())
        .chain([queries_alone])
        .collect()
}
