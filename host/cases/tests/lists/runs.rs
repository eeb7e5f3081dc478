//! The runs: that there are enough of every sort, and what holds of each.

use cases::runs::{self, play, Played, Run};
use reference::floor_file::{sizes, Record};
use reference::governing;
use reference::layout::layout;
use reference::named::named;
use reference::refusals::refusal;
use reference::table::numbers;
use reference::verdict::judge;
use std::collections::BTreeSet;
use std::sync::OnceLock;

/// The runs with what they leave, worked out once.
fn runs() -> &'static [(Run, Played)] {
    static RUNS: OnceLock<Vec<(Run, Played)>> = OnceLock::new();
    RUNS.get_or_init(|| {
        let played = |run: Run| (run.clone(), play(&run));
        runs::all().into_iter().map(played).collect()
    })
}

/// Whatever the changes were, a table that was right at the start is right at the end.
#[test]
fn right_tables_stay_right() {
    let mut held = 0;
    for (run, played) in runs() {
        if !lent_enough(run) {
            continue;
        }
        let right = run.table.starts_with(&numbers(&run.floor));
        if right || run.opens {
            let numbers = numbers(&played.floor);
            assert!(played.table.starts_with(&numbers), "{}", run.description);
            assert_eq!(played.table[numbers.len()..], run.table[numbers.len()..]);
            held += 1;
        }
    }
    assert!(held >= 40);
}

/// Neither 1 to 7 nor 8 nor 13 applies to the floor as it is opened.
fn lent_enough(run: &Run) -> bool {
    refusal(&run.floor) == 0 && {
        let (spans, supports) = asked(&run.floor);
        run.table.len() >= spans && run.governing.len() >= supports
    }
}

/// How many numbers of a table and of a slice a floor that is not refused asks for.
fn asked(floor: &[u8]) -> (usize, usize) {
    let sizes = sizes(floor);
    (reference::table::length(sizes), governing::length(sizes))
}

/// "If the slice agreed with the table before a change, it agrees with it after."
#[test]
fn slices_that_agree_still_do() {
    let agrees = |floor: &[u8], table: &[u32], slice: &[u32]| {
        slice.starts_with(&governing::numbers(sizes(floor), table))
    };
    let (mut on_right_tables, mut on_wrong_tables) = (0, 0);
    for (run, played) in runs() {
        if !lent_enough(run) {
            continue;
        }
        if run.opens || agrees(&run.floor, &run.table, &run.governing) {
            let (_, supports) = asked(&run.floor);
            assert!(
                agrees(&played.floor, &played.table, &played.governing),
                "{}",
                run.description
            );
            assert_eq!(played.governing[supports..], run.governing[supports..]);
            match played.table.starts_with(&numbers(&played.floor)) {
                true => on_right_tables += 1,
                false => on_wrong_tables += 1,
            }
        }
    }
    assert!(on_right_tables >= 40 && on_wrong_tables >= 20);
}

/// In many runs wrong numbers of the slice outlive changes that are taken, and some are put right.
#[test]
fn wrong_supports_are_left_and_put_right() {
    let mut told_apart = 0;
    for (run, played) in runs() {
        if run.opens || judge(&played.floor) != (0, 0) || !changed(played) {
            continue;
        }
        let from_table = governing::numbers(sizes(&played.floor), &played.table);
        let some_left = !played.governing.starts_with(&from_table);
        if some_left && played.governing != run.governing {
            told_apart += 1;
        }
    }
    assert!(told_apart >= 50, "{told_apart}");
}

/// The supports whose two faces have the same total and other parts.
pub fn ties(floor: &[u8], table: &[u32]) -> Vec<governing::Support> {
    let mut supports = governing::supports(sizes(floor));
    supports.retain(|support| match support.faces(table)[..] {
        [lower, higher] => lower[0] == higher[0] && lower != higher,
        _ => false,
    });
    supports
}

/// "the lower span's on a tie": at supports that a change writes, the lower span's record being the one
/// that it writes, and the higher span's.
#[test]
fn some_changes_make_a_tie() {
    let mut written = [0; 2];
    for (run, played) in runs() {
        let (false, [change], true) = (run.opens, &run.changes[..], lent_enough(run)) else {
            continue;
        };
        let Record { kind, index, .. } = Record::read(change);
        if played.changes != [(0, 0)] || judge(&run.floor) != (0, 0) {
            continue;
        }
        let named = named(kind, index, sizes(&run.floor));
        for tie in ties(&played.floor, &played.table) {
            let by = [tie.lower_span, tie.higher_span].map(|span| named.contains(&span.unwrap()));
            if by[0] != by[1] {
                written[usize::from(by[1])] += 1;
            }
        }
    }
    assert!(written.iter().all(|&ties| ties >= 20), "{written:?}");
}

/// 13: one number short is refused, just enough is taken, and where the table is short too it is 8.
#[test]
fn slices_at_their_length() {
    let mut seen = BTreeSet::new();
    for (run, played) in runs() {
        let (Some((refused, _)), 0) = (played.opening, refusal(&run.floor)) else {
            continue;
        };
        let (spans, supports) = asked(&run.floor);
        let table_is_short = run.table.len() < spans;
        match (table_is_short, run.governing.len() as i64 - supports as i64) {
            (true, -1) => assert_eq!(seen_as(&mut seen, "both short", refused), 8),
            (false, -1) => assert_eq!(seen_as(&mut seen, "slice short", refused), 13),
            (false, 0) => assert_eq!(seen_as(&mut seen, "just enough", refused), 0),
            _ => (),
        }
    }
    assert_eq!(seen.len(), 3, "{seen:?}");
}

fn seen_as(seen: &mut BTreeSet<&'static str>, words: &'static str, refused: u128) -> u128 {
    seen.insert(words);
    refused
}

#[test]
fn no_two_runs_share_a_description() {
    let descriptions = runs().iter().map(|(run, _)| &run.description[..]);
    assert_eq!(BTreeSet::from_iter(descriptions).len(), runs().len());
}

/// A change with the verdict before it, its refusal and the verdict after.
struct Step<'a> {
    change: &'a [u8],
    before: u128,
    refused: u128,
    after: u128,
}

impl Step<'_> {
    fn clear_to_clear(&self) -> bool {
        (self.before, self.refused, self.after) == (0, 0, 0)
    }
}

fn steps() -> Vec<Step<'static>> {
    let mut steps = Vec::new();
    for (run, played) in runs() {
        let (_, mut before) = judge(&run.floor);
        for (change, &(refused, after)) in run.changes.iter().zip(&played.changes) {
            steps.push(Step {
                change,
                before,
                refused,
                after,
            });
            if refused == 0 {
                before = after;
            }
        }
    }
    steps
}

#[test]
fn there_are_runs_enough() {
    assert!(runs().len() >= 120);
    assert!(runs().iter().all(|(run, _)| run.changes.len() <= 40));
    let mut seen = BTreeSet::new();
    for (run, _) in runs() {
        if judge(&run.floor) == (0, 0) {
            let sizes = sizes(&run.floor);
            seen.insert(format!("{:?}", layout(&run.floor)));
            seen.insert(format!("{}x{}", sizes.nx, sizes.ny));
        }
    }
    assert!(seen.contains("3x3") && seen.contains("12x12"), "{seen:?}");
    assert_eq!(
        seen.iter().filter(|words| words.contains("Some")).count(),
        3
    );
}

/// At least half of the changes leave a clear floor clear, of every kind many.
#[test]
fn most_changes_keep_a_clear_floor_clear() {
    let steps = steps();
    let clear = steps.iter().filter(|step| step.clear_to_clear()).count();
    assert!(2 * clear >= steps.len(), "{clear} of {}", steps.len());
    for kind in [3, 5, 6, 7, 8, 9] {
        let of_kind =
            |step: &&Step| step.clear_to_clear() && Record::read(step.change).kind == kind;
        assert!(steps.iter().filter(of_kind).count() >= 100, "kind {kind}");
    }
}

/// In many runs wrong numbers outlive changes that are taken, and some are put right: neither a program
/// that writes everything nor one that writes nothing passes them.
#[test]
fn wrong_numbers_are_left_and_put_right() {
    let mut told_apart = 0;
    for (run, played) in runs() {
        if run.opens || judge(&played.floor) != (0, 0) || !changed(played) {
            continue;
        }
        let right = numbers(&played.floor);
        let some_left = !played.table.starts_with(&right);
        if some_left && played.table != run.table {
            told_apart += 1;
        }
    }
    assert!(told_apart >= 50, "{told_apart}");
}

fn changed(played: &Played) -> bool {
    played.changes.iter().any(|&(refused, _)| refused == 0)
}

/// Each limit is broken by some change of a clear floor, and mended by another.
#[test]
fn limits_are_broken_and_mended() {
    let steps = steps();
    for limit in [2, 4, 8, 16, 32, 64] {
        let breaks = |step: &Step| step.refused == 0 && step.before == 0 && step.after & limit != 0;
        let mends = |step: &Step| step.refused == 0 && step.before & limit != 0 && step.after == 0;
        assert!(steps.iter().any(breaks), "limit {limit}");
        assert!(steps.iter().any(mends), "limit {limit}");
    }
    let broken_twice = |step: &Step| step.refused == 0 && step.before != 0 && step.after != 0;
    assert!(steps.iter().any(broken_twice));
}

/// A weak edge breaks 64 whichever change makes it weak, and only where the slab is not thick enough for it.
#[test]
fn edges_made_weak_and_strong_again() {
    let weak = runs()
        .iter()
        .filter(|(run, _)| run.description.starts_with("weak edges"));
    let mut found = 0;
    for (run, played) in weak {
        let verdicts: Vec<u128> = played.changes.iter().map(|&(_, verdict)| verdict).collect();
        let right: &[u128] = match run.description.ends_with("thick enough") {
            true => &[0, 0],
            false => &[64, 64, 0, 64, 0, 64, 64, 64, 0],
        };
        assert_eq!(judge(&run.floor), (0, 0), "{}", run.description);
        assert_eq!(verdicts, right, "{}", run.description);
        found += 1;
    }
    assert_eq!(found, 9 * 3);
}

#[test]
fn every_refusal_comes_up() {
    let of_changes: BTreeSet<u128> = steps().iter().map(|step| step.refused).collect();
    assert_eq!(of_changes, (0..=9).chain([13]).collect());
    // 5 to 7 also by the changed floor, the held one being clear.
    for refusal in [5, 6, 7, 8, 9, 13] {
        let of_a_clear_floor = |step: &Step| step.before == 0 && step.refused == refusal;
        assert!(steps().iter().any(of_a_clear_floor), "refusal {refusal}");
    }
    let openings = runs().iter().filter_map(|(_, played)| played.opening);
    let of_openings: BTreeSet<u128> = openings.map(|(refused, _)| refused).collect();
    assert_eq!(of_openings, (0..=8).chain([13]).collect());
}

/// Changes of every length up to 40 bytes but a few, and of 16 most.
#[test]
fn changes_of_many_lengths() {
    let lengths: BTreeSet<usize> = steps().iter().map(|step| step.change.len()).collect();
    assert!(lengths.len() >= 30, "{lengths:?}");
    assert!(lengths.contains(&0) && lengths.iter().all(|&length| length <= 40));
}
