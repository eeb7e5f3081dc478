//! What cargo test compares, with a fixed seed, whichever library answers.

use differ::job::{Calls, Job};
use differ::tally::Tally;
use differ::variety;
use differ::work::{parts, Part, SHORT};

pub const SEED: u64 = 1;

pub fn compared(job: &Job, part: Part, threads: usize) -> Tally {
    let compared = part.compare(job, 0..part.cases, threads);
    compared.unwrap_or_else(|difference| panic!("{difference}"))
}

fn job(calls: Calls) -> Job {
    Job {
        calls,
        ..Job::of_the_library(SEED)
    }
}

pub fn floors(calls: Calls) {
    let [floors, flipped, ..] = parts(SHORT);
    let job = job(calls);
    let mut tally = compared(&job, floors, 1);
    assert!(tally.floors() >= SHORT.floors);
    tally.merge(compared(&job, flipped, 1));
    assert_eq!(variety::floors(&tally), [""; 0]);
}

pub fn changes(calls: Calls) {
    let [_, _, changes, _] = parts(SHORT);
    let tally = compared(&job(calls), changes, 1);
    assert!(tally.changes.total() >= SHORT.changes);
    assert_eq!(variety::changes(&tally), [""; 0]);
}

pub fn steel(calls: Calls) {
    let [.., steel] = parts(SHORT);
    let tally = compared(&job(calls), steel, 1);
    assert!(tally.steel.total() >= SHORT.queries);
    assert_eq!(variety::steel(&tally), [""; 0]);
}
