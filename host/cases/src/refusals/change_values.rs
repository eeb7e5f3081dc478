//! Changes taken, and changes refused for what the changed floor would be.

use super::change_refusals::{changeable, good_values, is_changeable};
use super::{tried_values, Case, KINDS, LISTED};
use floor::{last_index, record, value, with, Field, Floor};

pub fn cases() -> Vec<Case> {
    [
        taken(),
        nothing_altered(),
        ranges(),
        columns_against_spans(),
        depths(),
        layouts(),
    ]
    .into_iter()
    .flatten()
    .collect()
}

fn base() -> Vec<u8> {
    Floor::good(3, 2)
        .with_beams_everywhere()
        .with_offsets()
        .bytes()
}

fn taken() -> Vec<Case> {
    let mut cases = Vec::new();
    for (kind, name) in changeable() {
        let mut indices = vec![0, last_index(&base(), kind)];
        indices.dedup();
        for index in indices {
            cases.push(Case::change(
                format!("{name} {index} taken"),
                &base(),
                record(kind, index, good_values(kind)),
            ));
        }
    }
    cases
}

/// The record as it stands in the floor.
fn held(floor: &[u8], kind: u16, index: u16) -> Vec<u8> {
    let fields = [Field::A, Field::B, Field::C];
    record(
        kind,
        index,
        fields.map(|field| value(floor, kind, index, field)),
    )
}

fn nothing_altered() -> Vec<Case> {
    let base = base();
    KINDS
        .into_iter()
        .map(|(kind, name)| {
            let last = last_index(&base, kind);
            Case::change(
                format!("{name} {last} as it was"),
                &base,
                held(&base, kind, last),
            )
        })
        .collect()
}

/// Against 1 by 1 bays and the thinnest slab, where no other refusal is near.
fn ranges() -> Vec<Case> {
    let mut floor = Floor::good(1, 1).with_beams_everywhere();
    floor.t = 90;
    let floor = floor.bytes();
    let mut cases = Vec::new();
    for (kind, field, name) in LISTED {
        if !is_changeable(kind) {
            continue;
        }
        let high_bytes = [value(&floor, kind, 0, field) + (1 << 16), u32::MAX];
        for &tried in tried_values(kind, field).iter().chain(&high_bytes) {
            cases.push(Case::change(
                format!("{name} {tried}"),
                &floor,
                with(&held(&floor, kind, 0), kind, 0, field, tried),
            ));
        }
    }
    cases
}

fn columns_against_spans() -> Vec<Case> {
    let floor = with(&base(), 4, 0, Field::A, 600);
    let floor = with(&floor, 4, 0, Field::B, 700);
    let mut cases = Vec::new();
    for (kind, name, spans) in [
        (5, "x span", [1_180, 1_200, 1_220]),
        (6, "y span", [1_380, 1_400, 1_420]),
    ] {
        for index in [0, last_index(&base(), kind)] {
            for span in spans {
                cases.push(Case::change(
                    format!("{name} {index} of {span}, columns 600 by 700"),
                    &floor,
                    record(kind, index, [span, 0, 0]),
                ));
            }
        }
    }
    cases
}

fn depths() -> Vec<Case> {
    let mut cases = Vec::new();
    for (kind, name) in [(7, "x line"), (8, "y line")] {
        for line in [0, last_index(&base(), kind)] {
            for depth in [200, 201] {
                cases.push(Case::change(
                    format!("{name} {line} of depth {depth}, t 200"),
                    &base(),
                    record(kind, line, [300, depth, 0]),
                ));
            }
        }
    }
    cases
}

fn layouts() -> Vec<Case> {
    let beam = [300, 600, 0];
    let none = [0, 0, 0];
    let mut cases = Vec::new();
    for (nx, ny, x_lines, y_lines, kind, line, put) in [
        (3, 2, "111", "1111", 7, 0, none),
        (3, 2, "111", "1111", 7, 1, none),
        (3, 2, "111", "1111", 8, 3, none),
        (3, 2, "101", "1001", 7, 1, beam),
        (3, 2, "101", "1001", 8, 0, none),
        (3, 2, "101", "1001", 8, 2, beam),
        (3, 2, "101", "1001", 8, 3, beam),
        (3, 2, "000", "0000", 7, 0, beam),
        (3, 2, "000", "0000", 8, 1, beam),
        (3, 2, "000", "0000", 8, 1, none),
        (2, 1, "11", "101", 8, 1, beam),
        (2, 1, "11", "111", 8, 1, none),
        (2, 1, "11", "111", 8, 0, none),
        (1, 2, "101", "11", 7, 1, beam),
        (1, 2, "111", "11", 7, 1, none),
        (1, 1, "11", "11", 7, 1, none),
        (1, 1, "00", "00", 8, 0, beam),
    ] {
        let floor = Floor::good(nx, ny).with_beams(x_lines, y_lines).bytes();
        let direction = if kind == 7 { "x" } else { "y" };
        let words = if put == beam { "a beam" } else { "no beam" };
        cases.push(Case::change(
            format!("{words} on {direction} line {line}, was x lines {x_lines}, y lines {y_lines}"),
            &floor,
            record(kind, line, put),
        ));
    }
    cases
}
