//! The inputs that are listed: that there are enough of every sort, and what each of them earns by 01.

mod beams;
mod change_refusals;
mod command;
mod draw;
mod floor_refusals;
mod floors;
mod morning;
mod places;
mod queries;
mod runs;
mod scheduled;
mod schedules;
mod single;
mod tables;
mod weak;

use cases::refusals::{self, Case};
use std::collections::BTreeSet;
use std::sync::OnceLock;

/// Built once for all tests.
fn cases() -> &'static [Case] {
    static CASES: OnceLock<Vec<Case>> = OnceLock::new();
    CASES.get_or_init(refusals::all)
}

fn case(description: &str) -> &'static Case {
    let mut all = cases().iter();
    let case = all.find(|case| case.description == description);
    case.unwrap_or_else(|| panic!("no case is described as {description:?}"))
}

fn assert_refusals(expected: &[(&str, u128)]) {
    for &(description, refusal) in expected {
        assert_eq!(case(description).refusal(), refusal, "{description}");
    }
}

#[test]
fn no_two_cases_share_a_description() {
    let descriptions = cases().iter().map(|case| &case.description[..]);
    assert_eq!(BTreeSet::from_iter(descriptions).len(), cases().len());
    assert!(cases().len() >= 250);
}

#[test]
fn every_refusal_comes_up() {
    let refusals = |of_changes| {
        let of_sort = cases()
            .iter()
            .filter(move |case| case.change.is_some() == of_changes);
        BTreeSet::from_iter(of_sort.map(Case::refusal))
    };
    assert_eq!(refusals(false), BTreeSet::from_iter(0..=7));
    assert_eq!(refusals(true), BTreeSet::from([0, 1, 2, 3, 4, 5, 6, 7, 9]));
}
