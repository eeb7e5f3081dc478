//! The page's library held against the reference, in node. Wrong ones in its place are found out.

mod compared;
mod noticing;

use differ::job::Calls;
use differ::page::{calls, can_be_tried, Script, PAGE};
use differ::work::Amount;
use floor::{record, Floor};
use gandhrumil::Query;
use noticing::noticed;
use std::panic::{catch_unwind, AssertUnwindSafe};

#[test]
fn floors() {
    if can_be_tried() {
        compared::floors(PAGE);
    }
}

#[test]
fn changes() {
    if can_be_tried() {
        compared::changes(PAGE);
    }
}

#[test]
fn steel() {
    if can_be_tried() {
        compared::steel(PAGE);
    }
}

/// Each fault of `web/test/wrong.js` as a script of its own.
macro_rules! wrong {
    ($($name:ident: $fault:literal;)*) => {$(
        struct $name;

        impl Script for $name {
            const PATH: &'static str = concat!(env!("CARGO_MANIFEST_DIR"), "/../../web/test/wrong.js");
            const WORDS: &'static [&'static str] = &[$fault];
        }
    )*};
}

wrong! {
    BeforeTheFloor: "before the floor";
    AfterTheFloor: "after the floor";
    AtTheEndOfTheMemory: "at the end of the memory";
    InItsConstants: "in its constants";
    DeepInTheStack: "deep in the stack";
    InTheFloor: "in the floor";
    InTheChange: "in the change";
    InTheTable: "in the table";
    InTheChangedFloor: "in the changed floor";
    InThePlaces: "in the places";
    InTheSchedule: "in the schedule";
    AfterTheSchedule: "after the schedule";
    InTheScheduledFloor: "in the scheduled floor";
    ABitOfTheAnswer: "a bit of the answer";
    AByteTooFew: "a byte too few";
    OfAnotherFrame: "of another frame";
    NoAnswer: "no answer";
}

/// Each call once, on a floor that is broken. What is said where one panics.
fn panics(calls: Calls) -> String {
    let mut floor = Floor::clear(2, 2).bytes();
    let query = Query {
        m: 2_195_000,
        b: 1_000,
        t: 150,
        d: 124,
        fc: 30,
        fy: 420,
    };
    let change = record(5, 1, [5_980, 0, 0]);
    let (mut table, mut governing, mut places) = ([0; 192], [0; 90], [0; 20]);
    let mut schedule = [0; 6 * 12 * 32];
    let made = catch_unwind(AssertUnwindSafe(|| {
        (calls.open)(&floor, &mut table, &mut governing);
        (calls.clear)(&floor);
        (calls.places)(&floor, &mut places);
        (calls.panel)(&floor, 0, 0);
        (calls.change)(&mut floor, &mut table, &mut governing, &change);
        (calls.steel)(query);
        (calls.schedule)(&floor, &mut schedule);
    }));
    let panic = made.expect_err("a panic");
    *panic.downcast().expect("words")
}

#[test]
fn what_is_written_beyond_what_is_lent() {
    if !can_be_tried() {
        return;
    }
    for (calls, words) in [
        (calls::<BeforeTheFloor>(), "gandhrumil_clear writes at "),
        (calls::<AfterTheFloor>(), "gandhrumil_clear writes at "),
        (
            calls::<AtTheEndOfTheMemory>(),
            "gandhrumil_panel writes at ",
        ),
        (calls::<InItsConstants>(), "gandhrumil_steel writes at "),
        (calls::<DeepInTheStack>(), "gandhrumil_steel writes at "),
        (
            calls::<AfterTheSchedule>(),
            "gandhrumil_schedule writes at ",
        ),
        (calls::<InTheFloor>(), "writes to what it may only read: "),
        (
            calls::<InTheScheduledFloor>(),
            "writes to what it may only read: ",
        ),
        (calls::<InTheChange>(), "writes to what it may only read: "),
    ] {
        let panic = panics(calls);
        assert!(panic.contains(words), "{panic}");
    }
}

#[test]
fn answers_that_are_none() {
    if !can_be_tried() {
        return;
    }
    for (calls, words) in [
        (calls::<AByteTooFew>(), " bytes were lent and "),
        (
            calls::<OfAnotherFrame>(),
            "frame 1 gets the answer of frame 0",
        ),
        (calls::<NoAnswer>(), "node does not answer: "),
    ] {
        let panic = panics(calls);
        assert!(
            panic.contains(words) && panic.contains("Open on slices of 192 and 90"),
            "{panic}"
        );
    }
}

const FEW: Amount = Amount {
    floors: 17,
    flipped: 0,
    changes: 100,
    queries: 500,
};

#[test]
fn wrong_answers() {
    if !can_be_tried() {
        return;
    }
    for (part, calls, words) in [
        (
            "floors",
            calls::<ABitOfTheAnswer>(),
            "opening: the library answers ",
        ),
        (
            "changes",
            calls::<ABitOfTheAnswer>(),
            ": the library answers ",
        ),
        (
            "steel queries",
            calls::<ABitOfTheAnswer>(),
            ": the library answers ",
        ),
        ("floors", calls::<InTheTable>(), "opening: table: at "),
        (
            "floors",
            calls::<InThePlaces>(),
            " numbers lent: slice: at 0 ",
        ),
        (
            "floors",
            calls::<InTheSchedule>(),
            " bytes lent: schedule: at ",
        ),
        ("changes", calls::<InTheChangedFloor>(), ": floor: at "),
    ] {
        let noticed = noticed(FEW, part, calls);
        assert!(noticed.contains(words), "{noticed}");
    }
}
