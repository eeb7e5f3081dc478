//! The program that makes the product's calls, held against the reference: floors, changes and queries as `differ` draws them.

mod described;
mod kept;
mod recording;
mod stream;

use cases::program::{first_difference, printed};
use differ::floors::flips;
use differ::{floors, runs, steel};
use recording::batches;
use std::collections::BTreeSet;
use std::fs;
use std::path::{Path, PathBuf};
use stream::{
    Batch, Call, Lent, LONGEST_CHANGE, LONGEST_FLOOR, LONGEST_GOVERNING, LONGEST_PLACES,
    LONGEST_SCHEDULE, LONGEST_TABLE,
};

fn stdin(batches: &[Batch]) -> Vec<u8> {
    batches.iter().flat_map(Batch::stdin).collect()
}

/// Holds what the program prints against the right lines, call by call.
fn compare(batches: &[Batch]) {
    let printed = printed("calls", &stdin(batches));
    let mut lines = printed.split_inclusive('\n');
    for (number, batch) in batches.iter().enumerate() {
        for (place, made) in batch.made.iter().enumerate() {
            let taken: String = lines.by_ref().take(made.lines.len()).collect();
            if let Some(difference) = first_difference(&made.text(), &taken) {
                let call = &made.call;
                panic!("batch {number}, call {place}, {call:?}: {difference}");
            }
        }
    }
    assert_eq!(lines.next(), None, "printed after the last call");
}

/// The refusals that the calls of one kind got.
fn refusals(batches: &[Batch], kind: fn(&Call) -> bool) -> BTreeSet<u32> {
    let made = batches.iter().flat_map(|batch| &batch.made);
    let of_kind = made.filter(|made| kind(&made.call));
    let refusal = |line: &str| line.split(' ').next().unwrap().parse().unwrap();
    of_kind.map(|made| refusal(&made.lines[0])).collect()
}

fn opening(call: &Call) -> bool {
    matches!(call, Call::Open)
}

fn changing(call: &Call) -> bool {
    matches!(call, Call::Change(_))
}

fn of_panel(call: &Call) -> bool {
    matches!(call, Call::Panel(..))
}

fn of_clear(call: &Call) -> bool {
    matches!(call, Call::Clear)
}

fn of_places(call: &Call) -> bool {
    matches!(call, Call::Places(_))
}

fn of_schedule(call: &Call) -> bool {
    matches!(call, Call::Schedule(_))
}

fn of_steel(call: &Call) -> bool {
    matches!(call, Call::Steel(_))
}

#[test]
fn floors_and_panels() {
    let batches = batches("opened floors", 40, |case, _| floors::case(case));
    assert_eq!(refusals(&batches, opening), (0..=8).chain([13]).collect());
    assert!(refusals(&batches, of_panel).contains(&10));
    assert_eq!(refusals(&batches, of_clear), (0..=7).collect());
    assert_eq!(refusals(&batches, of_places), (0..=7).chain([25]).collect());
    assert_eq!(
        refusals(&batches, of_schedule),
        (0..=7).chain(15..=17).collect()
    );
    compare(&batches);
}

#[test]
fn floors_with_every_byte_flipped() {
    compare(&batches("flipped", 1, flips::case));
}

#[test]
fn changes() {
    let batches = batches("runs of changes", 30, |case, _| runs::case(case));
    let found = refusals(&batches, changing);
    let wanted = BTreeSet::from([0, 5, 6, 7, 8, 9, 13]);
    assert!(found.is_superset(&wanted), "{found:?}");
    compare(&batches);
}

#[test]
fn what_is_described() {
    let batches = described::batches();
    assert!(batches.iter().all(Batch::fits));
    assert_eq!(refusals(&batches, opening), (0..=8).chain([13]).collect());
    assert_eq!(refusals(&batches, changing), (0..=9).chain([13]).collect());
    assert_eq!(refusals(&batches, of_clear), (0..=7).collect());
    assert_eq!(refusals(&batches, of_places), (0..=7).chain([25]).collect());
    assert_eq!(
        refusals(&batches, of_schedule),
        (0..=7).chain(15..=17).collect()
    );
    compare(&batches);
}

#[test]
fn steel_queries() {
    let batches = batches("steel queries", 8, |case, _| steel::case(case));
    assert_eq!(refusals(&batches, of_steel), BTreeSet::from([0, 11, 12]));
    compare(&batches);
}

/// A batch of one steel query, which follows a fault.
fn next_batch() -> Vec<u8> {
    kept::batches().last().unwrap().stdin()
}

fn words(numbers: &[usize]) -> Vec<u8> {
    let bytes = numbers.iter().map(|&number| (number as u32).to_le_bytes());
    bytes.collect::<Vec<_>>().concat()
}

/// Buffers are filled whole, and what they have no room for is not read past.
#[test]
fn lengths_to_the_end_of_the_buffers() {
    let mut batch = Batch::new(Lent::of(
        &[7; LONGEST_FLOOR],
        &[8; LONGEST_TABLE],
        &[9; LONGEST_GOVERNING],
    ));
    batch.make(Call::Change(vec![9; LONGEST_CHANGE]));
    batch.make(Call::Places(vec![6; LONGEST_PLACES]));
    batch.make(Call::Schedule(vec![5; LONGEST_SCHEDULE]));
    batch.show();
    compare(&[batch]);
    for stopped in [
        words(&[LONGEST_FLOOR + 1]),
        words(&[0, LONGEST_TABLE + 1]),
        words(&[0, 0, LONGEST_GOVERNING + 1]),
        words(&[0, 0, 0, 1, 2, LONGEST_CHANGE + 1]),
        words(&[0, 0, 0, 1, 7, LONGEST_PLACES + 1]),
        words(&[0, 0, 0, 1, 8, LONGEST_SCHEDULE + 1]),
        words(&[usize::MAX]),
    ] {
        let stdin = [stopped, next_batch()].concat();
        assert_eq!(printed("calls", &stdin), "");
    }
}

/// At a batch without calls and at words that are no call. An input that ends goes on with zeros.
#[test]
fn where_it_stops() {
    for stopped in [[0, 0, 0, 0, 0], [0, 0, 0, 1, 0], [0, 0, 0, 1, 9]] {
        let stdin = [words(&stopped), next_batch()].concat();
        assert_eq!(printed("calls", &stdin), "");
    }
    let stdin = next_batch();
    for end in [
        0,
        2,
        12,
        13,
        16,
        17,
        20,
        34,
        stdin.len() - 60,
        stdin.len() - 1,
    ] {
        let (cut, zeros) = (&stdin[..end], [0; 64]);
        assert_eq!(
            printed("calls", cut),
            printed("calls", &[cut, &zeros].concat()),
            "cut at {end}"
        );
    }
}

fn kept(name: &str) -> PathBuf {
    let crate_folder = Path::new(env!("CARGO_MANIFEST_DIR")).join("../../crates/calls");
    crate_folder.join(name)
}

fn kept_contents() -> (Vec<u8>, String) {
    let batches = kept::batches();
    let stdout = batches.iter().map(Batch::stdout).collect();
    (stdin(&batches), stdout)
}

#[test]
fn what_is_kept_is_right() {
    let (stdin, stdout) = kept_contents();
    assert!(fs::read(kept("stdin")).unwrap() == stdin, "{RENEW}");
    let kept = fs::read_to_string(kept("stdout")).unwrap();
    assert_eq!(first_difference(&stdout, &kept), None, "{RENEW}");
}

const RENEW: &str = "cargo tests -p differ --test calls -- --ignored writes stdin and stdout anew";

#[test]
#[ignore = "writes files"]
fn write_what_is_kept() {
    let (stdin, stdout) = kept_contents();
    fs::write(kept("stdin"), stdin).unwrap();
    fs::write(kept("stdout"), stdout).unwrap();
}
