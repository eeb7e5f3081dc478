//! The calls that the cases of `differ` make, answered by the reference and recorded.

use crate::stream::{Batch, Call, Lent};
use differ::case::Case;
use differ::job::{Calls, Job};
use differ::tally::Tally;
use gandhrumil::{Answer, Query};
use std::cell::RefCell;

thread_local! {
    static SESSIONS: RefCell<Vec<Batch>> = const { RefCell::new(Vec::new()) };
}

const RECORDING: Calls = Calls {
    open,
    change,
    panel,
    clear,
    places,
    steel,
    schedule,
};

/// The batches of some cases. A case is told its number.
pub fn batches(
    part: &str,
    cases: u64,
    case: fn(&mut Case, u64) -> Result<(), String>,
) -> Vec<Batch> {
    let job = Job {
        calls: RECORDING,
        ..Job::of_the_library(1)
    };
    let mut tally = Tally::default();
    for number in 0..cases {
        let draw = job.draw(part, number);
        let tally = &mut tally;
        let mut one = Case {
            job: &job,
            draw,
            tally,
        };
        case(&mut one, number).expect("the reference is at one with itself");
    }
    SESSIONS.take()
}

/// Makes a call in the last batch where that goes on from there, and in a new one where it does not.
fn in_batch<T>(
    goes_on: impl Fn(&Batch) -> bool,
    new: impl Fn() -> Batch,
    call: impl FnOnce(&mut Batch) -> T,
) -> T {
    SESSIONS.with_borrow_mut(|batches| {
        if !batches.last().is_some_and(goes_on) {
            let mut batch = new();
            if !batch.fits() {
                // Answered, and not recorded.
                return call(&mut batch);
            }
            batches.push(batch);
        }
        call(batches.last_mut().expect("a batch"))
    })
}

/// After it all that is lent is looked at whole.
fn on_lent(lent: Lent, call: Call) -> (Answer, Lent) {
    in_batch(
        |batch| batch.left == lent,
        || Batch::new(lent.clone()),
        |batch| {
            let answer = batch.make(call);
            batch.show();
            (answer, batch.left.clone())
        },
    )
}

fn open(floor: &[u8], table: &mut [u32], governing: &mut [u32]) -> Answer {
    let (answer, left) = on_lent(Lent::of(floor, table, governing), Call::Open);
    table.copy_from_slice(&left.table);
    governing.copy_from_slice(&left.governing);
    answer
}

fn change(floor: &mut [u8], table: &mut [u32], governing: &mut [u32], change: &[u8]) -> Answer {
    let call = Call::Change(change.to_vec());
    let (answer, left) = on_lent(Lent::of(floor, table, governing), call);
    floor.copy_from_slice(&left.floor);
    table.copy_from_slice(&left.table);
    governing.copy_from_slice(&left.governing);
    answer
}

fn panel(floor: &[u8], x: u64, y: u64) -> Answer {
    in_batch(
        |batch| batch.left.floor == floor,
        || Batch::new(Lent::of(floor, &[], &[])),
        |batch| batch.make(Call::Panel(x, y)),
    )
}

fn clear(floor: &[u8]) -> Answer {
    in_batch(
        |batch| batch.left.floor == floor,
        || Batch::new(Lent::of(floor, &[], &[])),
        |batch| batch.make(Call::Clear),
    )
}

fn places(floor: &[u8], slice: &mut [u32]) -> Answer {
    in_batch(
        |batch| batch.left.floor == floor,
        || Batch::new(Lent::of(floor, &[], &[])),
        |batch| batch.make_places(slice),
    )
}

fn schedule(floor: &[u8], bytes: &mut [u8]) -> Answer {
    in_batch(
        |batch| batch.left.floor == floor,
        || Batch::new(Lent::of(floor, &[], &[])),
        |batch| batch.make_schedule(bytes),
    )
}

fn steel(query: Query) -> Answer {
    in_batch(
        |_| true,
        || Batch::new(Lent::default()),
        |batch| batch.make(Call::Steel(query)),
    )
}
