//! The library held against the reference, with a fixed seed. `differ long` compares far more.

mod compared;

use compared::{compared, SEED};
use differ::job::{Job, LIBRARY};
use differ::lent::Room;
use differ::tally::Tally;
use differ::work::{parts, Amount};

#[test]
fn floors() {
    compared::floors(LIBRARY);
}

#[test]
fn changes() {
    compared::changes(LIBRARY);
}

#[test]
fn steel() {
    compared::steel(LIBRARY);
}

const FEW: Amount = Amount {
    floors: 80,
    flipped: 1,
    changes: 300,
    queries: 1_000,
};

fn few_compared(job: &Job, threads: usize) -> Tally {
    let mut tally = Tally::default();
    for part in parts(FEW) {
        tally.merge(compared(job, part, threads));
    }
    tally
}

#[test]
fn in_buffers_with_nothing_after_their_end() {
    let room = Room::Exact;
    let tally = few_compared(
        &Job {
            room,
            ..Job::of_the_library(SEED)
        },
        1,
    );
    assert!(tally.floors() > FEW.floors && tally.changes.total() == FEW.changes);
}

/// Where buffers lie is up to the allocator.
fn without_addresses(tally: Tally) -> Tally {
    Tally {
        floor_addresses: Default::default(),
        table_addresses: Default::default(),
        governing_addresses: Default::default(),
        places_addresses: Default::default(),
        change_addresses: Default::default(),
        schedule_addresses: Default::default(),
        ..tally
    }
}

#[test]
fn the_seed_alone_decides_what_is_compared() {
    let with = |seed, threads| without_addresses(few_compared(&Job::of_the_library(seed), threads));
    assert_eq!(with(2, 1), with(2, 2));
    assert_ne!(with(2, 1), with(3, 1));
}
