//! What `clear` says, held against the independent implementation and against the words of `check`.

use crate::check::{at_its_limits, inputs, BROKEN};
use crate::run::{root, scratch, slab, slab_on, Ran};
use cases::floors::Described;
use floor::Floor;
use reference::verdict::judge;
use std::collections::BTreeSet;
use std::fs;

const YES: &str = "standard input: yes, the floor is clear\n";
const NO: &str =
    "standard input: no, a limit of the Direct Design Method is broken or the slab is too thin; \
                  `slab check` names each\n";

fn asked(file: &[u8]) -> (i32, String) {
    let ran = slab_on(&["clear", "-"], file);
    assert_eq!(ran.stderr, "");
    (ran.status, ran.words().to_string())
}

fn yes() -> (i32, String) {
    (0, YES.to_string())
}

fn no() -> (i32, String) {
    (1, NO.to_string())
}

/// In the words of `check`, whose first line has number and reason.
fn refused(number: u128, file: &[u8]) -> (i32, String) {
    let check = slab_on(&["check", "-"], file);
    let first = check.words().lines().next().unwrap();
    let why = first.strip_prefix("standard input: ").unwrap();
    assert!(why.starts_with(&format!("refused {number}: ")), "{why}");
    (2, format!("standard input: no, {why}\n"))
}

/// "Yes exactly when the full verdict is 0; a refused floor answers no with its number." (02, Four)
#[test]
fn every_described_floor() {
    let mut met = BTreeSet::new();
    for Described { description, bytes } in inputs() {
        let right = match judge(&bytes) {
            (0, 0) => yes(),
            (0, _) => no(),
            (number, _) => {
                met.insert(number);
                refused(number, &bytes)
            }
        };
        assert_eq!(asked(&bytes), right, "{description}");
    }
    assert!(met.into_iter().eq(1..=7));
}

#[test]
fn each_limit_alone() {
    for (_, limit, spoil) in BROKEN {
        let mut floor = Floor::clear(3, 3);
        assert_eq!(asked(&floor.bytes()), yes());
        spoil(&mut floor);
        assert_eq!(asked(&floor.bytes()), no(), "{limit}");
    }
}

#[test]
fn a_floor_at_its_limits() {
    assert_eq!(asked(&at_its_limits().bytes()), yes());
}

/// What stands first in the line is what was named.
#[test]
fn a_floor_file_or_a_text() {
    for name in ["example/garage.floor", "example/garage.txt"] {
        let path = root(name);
        let path = path.to_str().unwrap();
        let Ran { status, stdout, .. } = slab(&["clear", path]);
        let line = format!("{path}: yes, the floor is clear\n");
        assert_eq!((status, stdout), (0, line.into_bytes()));
        assert_eq!(asked(&fs::read(path).unwrap()), yes());
    }
}

#[test]
fn an_empty_file() {
    let path = scratch("empty to clear");
    fs::write(&path, b"").unwrap();
    let ran = slab(&["clear", path.to_str().unwrap()]);
    assert_eq!(ran.status, 2);
    assert!(ran.words().contains(": no, refused 1: "), "{}", ran.words());
}

#[test]
fn no_floor_at_all() {
    let missing = slab(&["clear", root("example/no.floor").to_str().unwrap()]);
    let faulty = slab_on(&["clear", "-"], b"slab 200\nslab 200\n");
    for (ran, words) in [
        (missing, "slab: cannot read "),
        (faulty, "standard input, line 2: expected `slab` once"),
    ] {
        assert_eq!((ran.status, ran.stdout.len()), (3, 0));
        assert!(ran.stderr.contains(words), "{}", ran.stderr);
    }
}

#[test]
fn help() {
    let asked = slab(&["clear", "--help"]);
    assert_eq!((asked.status, &asked.stderr[..]), (0, ""));
    let words = asked.words();
    assert!(words.starts_with("slab clear FLOOR\n"), "{words}");
    assert!(words.contains("\nExit status: 0 clear, 1 not clear, 2 refused, 3 "));
}
