//! A morning's work: what its lines say, held against the floor worked out afresh after each change.

use cases::morning::text;
use reference::change::change;
use reference::floor_file::sizes;
use reference::governing;
use reference::sheet::line;
use reference::table::numbers;
use reference::verdict::judge;

const CHANGES: usize = 300;

fn bytes(hex: &str) -> Vec<u8> {
    let pairs = hex.as_bytes().chunks(2);
    pairs
        .map(|pair| u8::from_str_radix(std::str::from_utf8(pair).unwrap(), 16).unwrap())
        .collect()
}

/// `word BYTES REFUSAL VERDICT`
fn said(said: &str) -> (&str, Vec<u8>, (u128, u128)) {
    let words: Vec<&str> = said.split(' ').collect();
    let [word, hex, refusal, verdict] = words[..] else {
        panic!("{said:?}");
    };
    let answer = (refusal.parse().unwrap(), verdict.parse().unwrap());
    (word, bytes(hex), answer)
}

/// The table and the slice of a floor, as `open` fills them.
fn moments(floor: &[u8]) -> [String; 2] {
    let table = numbers(floor);
    let governing = governing::numbers(sizes(floor), &table);
    [
        format!("table {}", line(&table)),
        format!("governing {}", line(&governing)),
    ]
}

#[test]
fn every_line_is_that_of_the_floor_as_it_then_is() {
    let text = text(1, CHANGES);
    let lines: Vec<&str> = text.lines().collect();
    let (word, mut floor, answer) = said(lines[0]);
    assert_eq!((word, answer), ("floor", (0, 0)));
    assert_eq!(lines.len(), 3 * (CHANGES + 1) + 1);
    for (place, step) in lines[..3 * (CHANGES + 1)].chunks(3).enumerate().skip(1) {
        let (word, made, answer) = said(step[0]);
        let (refused, changed) = change(&floor, &made);
        floor = changed;
        let verdict = if refused == 0 { judge(&floor).1 } else { 255 };
        assert_eq!((word, answer), ("change", (refused, verdict)), "{place}");
        let [table, governing] = moments(&floor);
        assert_eq!(step[1..], [table.trim_end(), governing.trim_end()]);
    }
    let left = lines[3 * (CHANGES + 1)].strip_prefix("left ").unwrap();
    assert_eq!(bytes(left), floor);
}

#[test]
fn there_are_changes_of_every_sort() {
    let text = text(1, CHANGES);
    let changes = text.lines().filter(|line| line.starts_with("change "));
    let answers: Vec<(u128, u128)> = changes.map(|line| said(line).2).collect();
    let count = |wanted: fn(&(u128, u128)) -> bool| answers.iter().filter(|a| wanted(a)).count();
    assert!(count(|&answer| answer == (0, 0)) >= 100);
    assert!(count(|&(refused, verdict)| refused == 0 && verdict != 0) >= 20);
    for refusal in [5, 6, 7, 9] {
        assert!(answers.contains(&(refusal, 255)), "refusal {refusal}");
    }
}

#[test]
fn a_seed_always_gives_the_same_and_another_seed_another() {
    assert!(text(2, 5) == text(2, 5));
    assert!(text(2, 5) != text(5, 5));
}
