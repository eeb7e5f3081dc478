//! What `check` says of every floor, held against the independent implementation.

use crate::page::limits;
use crate::run::slab_on;
use cases::floors::{self, Described};
use floor::Floor;
use reference::verdict::{judge, judged};

fn said(file: &[u8]) -> (i32, String) {
    let ran = slab_on(&["check", "-"], file);
    assert_eq!(ran.stderr, "");
    (ran.status, ran.words().to_string())
}

pub fn inputs() -> Vec<Described> {
    let mut inputs = floors::all();
    inputs.extend(floors::long::inputs());
    inputs
}

/// The numbers of the limits, added up.
fn verdict_said(words: &str) -> u128 {
    let limits = limits(words).into_iter();
    limits.map(|(number, _)| u128::from(number)).sum()
}

/// The plan's rows from the south, a star where a panel asks for more than the slab.
fn plan_said(words: &str) -> Vec<Vec<String>> {
    let rows = words.lines().filter(|line| line.starts_with("  y bay"));
    let cells = |row: &str| row.split_whitespace().skip(3).map(str::to_string).collect();
    rows.rev().map(cells).collect()
}

fn plan_right(file: &[u8], t: u128) -> Vec<Vec<String>> {
    let marked = |least: &str| {
        let star = if least.parse::<u128>().unwrap() > t {
            "*"
        } else {
            ""
        };
        format!("{least}{star}")
    };
    let lines = judged(file);
    let rows = lines.lines().skip(1);
    rows.map(|row| row.split(' ').map(marked).collect())
        .collect()
}

#[test]
fn every_described_floor() {
    for Described { description, bytes } in inputs() {
        let (status, words) = said(&bytes);
        match judge(&bytes) {
            (0, verdict) => {
                let t = reference::floor_file::sizes(&bytes).t;
                assert_eq!(status, (verdict != 0).into(), "{description}");
                assert_eq!(verdict_said(&words), verdict, "{description}\n{words}");
                assert_eq!(
                    plan_said(&words),
                    plan_right(&bytes, t),
                    "{description}\n{words}"
                );
                assert_eq!(words.contains("\nclear: "), verdict == 0, "{description}");
                assert_eq!(
                    words.contains(&format!("\nnot clear, verdict {verdict}:\n")),
                    verdict != 0
                );
            }
            (refused, _) => {
                let start = format!("standard input: refused {refused}: ");
                assert_eq!(status, 2, "{description}");
                assert!(words.starts_with(&start), "{description}\n{words}");
            }
        }
    }
}

pub type Spoil = fn(&mut Floor);

/// What breaks each limit alone in a clear floor of 3 by 3 bays, and words that have to be said of it.
pub const BROKEN: [(u32, &str, Spoil); 7] = [
    (1, "fewer than three bays along x or along y", |floor| {
        *floor = Floor::clear(3, 2)
    }),
    (
        2,
        "the longer span is more than twice the shorter",
        |floor| {
            floor.x_spans = vec![6_020; 3];
            floor.y_spans = vec![3_000; 3];
        },
    ),
    (4, "differ by more than a third of the longer", |floor| {
        floor.x_spans[1] = 3_980
    }),
    (
        8,
        "off its line by more than a tenth of a span that adjoins it",
        |floor| {
            floor.offsets[5].1 = 601;
        },
    ),
    (
        16,
        "the live load is more than twice the dead load",
        |floor| floor.live = 10_001,
    ),
    (32, "is more than five times the other", |floor| {
        floor.x_lines = vec![(1_000, 1_500); 4];
        floor.y_lines = vec![(300, 400); 4];
    }),
    (
        64,
        "the slab is thinner than some panel's least thickness",
        |floor| floor.t = 180,
    ),
];

#[test]
fn each_limit_in_words() {
    for (number, limit, spoil) in BROKEN {
        let mut floor = Floor::clear(3, 3);
        spoil(&mut floor);
        let (_, words) = said(&floor.bytes());
        assert!(
            words.contains(&format!("\nnot clear, verdict {number}:\n")),
            "{words}"
        );
        assert!(words.contains(limit), "{words}");
    }
}

/// "equality always passes"
pub fn at_its_limits() -> Floor {
    let mut floor = Floor::clear(3, 3);
    floor.live = 2 * floor.dead;
    floor.offsets[5] = (400, 600);
    floor.x_spans[1] = 4_000;
    floor
}

#[test]
fn a_floor_at_its_limits_is_clear() {
    let (status, words) = said(&at_its_limits().bytes());
    assert_eq!(status, 0, "{words}");
}

#[test]
fn all_seven_together() {
    let inputs = floors::all();
    let all = inputs
        .iter()
        .find(|floor| floor.description == "all seven broken")
        .unwrap();
    let (status, words) = said(&all.bytes);
    assert_eq!((status, verdict_said(&words)), (1, 127), "{words}");
}
