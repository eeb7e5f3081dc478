//! Changes refused for their form, and changes of floors that are refused themselves.

use super::order::{self, FAULTS};
use super::{Case, KINDS, STRAY_VALUES, UNLISTED};
use floor::{last_index, record, with, Field, Floor};

pub fn cases() -> Vec<Case> {
    [
        lengths(),
        kinds(),
        indices(),
        zero_fields(),
        two_faults(),
        refused_floors(),
    ]
    .into_iter()
    .flatten()
    .collect()
}

fn base() -> Vec<u8> {
    Floor::good(2, 1)
        .with_beams_everywhere()
        .with_offsets()
        .bytes()
}

/// Good values for each kind, other than built floors have.
pub fn good_values(kind: u16) -> [u32; 3] {
    match kind {
        1 => [2, 1, 150],
        2 => [25, 280, 0],
        3 => [6_000, 0, 0],
        4 => [500, 500, 170],
        5 | 6 => [6_020, 0, 0],
        7 | 8 => [450, 900, 0],
        _ => [12_000, 11_999, 0],
    }
}

fn lengths() -> Vec<Case> {
    let good = record(5, 1, good_values(5));
    let mut cases = Vec::new();
    for length in [0, 1, 15, 17, 32, 64] {
        let mut change = good.repeat(4);
        change.truncate(length);
        cases.push(Case::change(
            format!("{length} bytes of x spans"),
            &base(),
            change,
        ));
    }
    cases
}

fn kinds() -> Vec<Case> {
    let mut cases = Vec::new();
    for kind in [0, 1, 2, 4, 10, 255, 256, 259, 261, 265, 65_535] {
        cases.push(Case::change(
            format!("kind {kind}"),
            &base(),
            record(kind, 0, good_values(kind % 256)),
        ));
    }
    cases
}

fn indices() -> Vec<Case> {
    let mut cases = Vec::new();
    for (kind, name) in changeable() {
        for index in [last_index(&base(), kind) + 1, 256] {
            cases.push(Case::change(
                format!("{name} {index} that the floor lacks"),
                &base(),
                record(kind, index, good_values(kind)),
            ));
        }
    }
    cases
}

/// "kind 3 or 5..9"
pub fn is_changeable(kind: u16) -> bool {
    [3, 5, 6, 7, 8, 9].contains(&kind)
}

pub fn changeable() -> Vec<(u16, &'static str)> {
    let mut kinds = KINDS.to_vec();
    kinds.retain(|&(kind, _)| is_changeable(kind));
    kinds
}

fn zero_fields() -> Vec<Case> {
    let mut cases = Vec::new();
    for (kind, field, name) in UNLISTED {
        if !is_changeable(kind) {
            continue;
        }
        for stray in STRAY_VALUES {
            let good = record(kind, 0, good_values(kind));
            cases.push(Case::change(
                format!("{name} {stray}"),
                &base(),
                with(&good, kind, 0, field, stray),
            ));
        }
    }
    cases
}

fn two_faults() -> Vec<Case> {
    [
        (
            "17 bytes and x span 980",
            [record(5, 0, [980, 0, 0]), vec![0]].concat(),
        ),
        ("kind 2 and fc 19", record(2, 0, [19, 420, 0])),
        ("kind 4 and cx 2000", record(4, 0, [2_000, 400, 0])),
        (
            "kind 1 and another number of bays",
            record(1, 0, [1, 2, 200]),
        ),
        ("loads 1 and dead 0", record(3, 1, [0, 0, 0])),
        ("x span 2 and span 980", record(5, 2, [980, 0, 0])),
        ("y span b 1 and span 980", record(6, 0, [980, 1, 0])),
        ("x span c 1 and too short for cx", record(5, 0, [780, 0, 1])),
        ("x line 2 and no beam", record(7, 2, [0, 0, 0])),
        ("y line beam c 1 and no beam", record(8, 0, [0, 0, 1])),
        ("offset 6 and 12001", record(9, 6, [12_001, 0, 0])),
        ("beam 149 wide and of depth t", record(7, 1, [149, 200, 0])),
    ]
    .into_iter()
    .map(|(words, change)| Case::change(words, &base(), change))
    .collect()
}

fn refused_floors() -> Vec<Case> {
    let mut cases = Vec::new();
    for fault in &FAULTS {
        let floor = (fault.put_into)(&order::base());
        for (words, change) in [
            ("good", record(3, 0, good_values(3))),
            ("of 0 bytes", Vec::new()),
        ] {
            cases.push(Case::change(
                format!("{words} on a floor refused {}", fault.name),
                &floor,
                change,
            ));
        }
    }
    for (refusal, cx, span) in [(5, 400, 980), (6, 1_500, 2_980)] {
        let floor = with(&order::base(), 4, 0, Field::A, cx);
        cases.push(Case::change(
            format!("mends a floor refused {refusal}"),
            &with(&floor, 5, 1, Field::A, span),
            record(5, 1, [4_000, 0, 0]),
        ));
    }
    cases.push(Case::change("on an empty file", &[], Vec::new()));
    cases
}
