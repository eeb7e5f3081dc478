//! Runs of changes drawn from a seed, in words, held against the independent implementation.

use crate::run::{scratch, slab_on};
use cases::runs::{self, Run};
use floor::Record;
use reference::floor_file::sizes;
use reference::refusals::refusal;
use reference::{governing, held, opening, table};
use std::fs;

/// None where no words make this change.
fn words(floor: &[u8], change: &[u8]) -> Option<String> {
    if change.len() != 16 {
        return None;
    }
    let Record {
        kind,
        index,
        fields: [a, b, c],
    } = Record::read(change);
    let across = sizes(floor).nx as u16 + 1;
    let words = match kind {
        3 if index == 0 => format!("loads {a} {b}"),
        5 if b == 0 => format!("x span {index} {a}"),
        6 if b == 0 => format!("y span {index} {a}"),
        7 => format!("x line {index} beam {a} {b}"),
        8 => format!("y line {index} beam {a} {b}"),
        9 => format!(
            "column {} {} offset {a} {b}",
            index % across,
            index / across
        ),
        _ => return None,
    };
    (c == 0).then_some(words)
}

/// Refusal and verdict of each change up to the first that is refused, and the floor as they leave it.
fn right(run: &Run, changes: &[&[u8]]) -> (Vec<(u128, u128)>, Vec<u8>) {
    let mut floor = run.floor.clone();
    let mut table = vec![0; table::length(sizes(&floor))];
    let mut governing = vec![0; governing::length(sizes(&floor))];
    opening::open(&floor, &mut table, &mut governing);
    let mut answers = Vec::new();
    for change in changes {
        let answer = held::change(&mut floor, &mut table, &mut governing, change);
        answers.push(answer);
        if answer.0 != 0 {
            break;
        }
    }
    (answers, floor)
}

/// The head of each change's lines, and below it the limits added up.
fn said(page: &str) -> Vec<(&str, u128)> {
    let mut said = Vec::new();
    for line in page.lines() {
        match line.strip_prefix("  ") {
            None => said.push((line, 0)),
            Some(below) => {
                let number = below.split_whitespace().next().unwrap();
                said.last_mut().unwrap().1 += number.parse::<u128>().unwrap_or(0);
            }
        }
    }
    said
}

fn expect(run: &Run, changes: &[(String, &[u8])]) -> [usize; 3] {
    let (words, bytes): (Vec<&str>, Vec<&[u8]>) = changes
        .iter()
        .map(|(words, bytes)| (&words[..], *bytes))
        .unzip();
    let (answers, floor) = right(run, &bytes);
    let path = scratch("run of changes");
    let options = ["change", "-", "-o", path.to_str().unwrap()];
    let ran = slab_on(&[&options, &words[..]].concat(), &run.floor);
    let said = said(ran.words());
    assert_eq!(said.len(), answers.len(), "{}", run.description);
    let mut met = [0; 3];
    for ((head, limits), (words, answer)) in said.iter().zip(words.iter().zip(&answers)) {
        let (outcome, right, below) = match answer {
            (0, 0) => (0, "taken, clear".to_string(), 0),
            (0, verdict) => (1, format!("taken, not clear, verdict {verdict}"), *verdict),
            (number, _) => (2, format!("refused {number}: "), 0),
        };
        let start = format!("{words}: {right}");
        let same = if outcome == 2 {
            head.starts_with(&start)
        } else {
            *head == start
        };
        assert!(
            same && *limits == below,
            "{}: {head}, {start}",
            run.description
        );
        met[outcome] += 1;
    }
    let status = match answers.last() {
        Some((0, 0)) => 0,
        Some((0, _)) => 1,
        _ => 2,
    };
    assert_eq!(ran.status, status, "{}", run.description);
    let written = fs::read(path).ok();
    assert_eq!(
        written,
        (status != 2).then_some(floor),
        "{}",
        run.description
    );
    met
}

#[test]
fn every_run() {
    let mut met = [0; 3];
    for run in runs::all().iter().filter(|run| refusal(&run.floor) == 0) {
        let worded = run
            .changes
            .iter()
            .filter_map(|change| Some((words(&run.floor, change)?, &change[..])));
        let changes: Vec<(String, &[u8])> = worded.collect();
        // The command stops where one is refused: what follows is another run.
        let taken: Vec<(String, &[u8])> = only_taken(run, &changes);
        for changes in [changes, taken] {
            if !changes.is_empty() {
                let more = expect(run, &changes);
                met = std::array::from_fn(|outcome| met[outcome] + more[outcome]);
            }
        }
    }
    assert!(met.iter().all(|&count| count > 50), "{met:?}");
}

fn only_taken<'a>(run: &Run, changes: &[(String, &'a [u8])]) -> Vec<(String, &'a [u8])> {
    let mut floor = run.floor.clone();
    let mut taken = changes.to_vec();
    taken.retain(|(_, change)| {
        let (refused, changed) = reference::change::change(&floor, change);
        floor = changed;
        refused == 0
    });
    taken
}
