//! Floors alone, for the ranges of refusals 2 and 5 and for refusal 6.

use super::{tried_values, Case, LISTED};
use floor::{last_index, value, with, Field, Floor};

pub fn cases() -> Vec<Case> {
    [
        ranges(),
        high_bytes(),
        last_records(),
        sides_told_apart(),
        columns_against_spans(),
    ]
    .into_iter()
    .flatten()
    .collect()
}

/// The thinnest slab, so that every beam depth in range is above it.
fn base() -> Vec<u8> {
    let mut floor = Floor::good(1, 1).with_beams_everywhere();
    floor.t = 90;
    floor.bytes()
}

fn ranges() -> Vec<Case> {
    let base = base();
    let mut cases = Vec::new();
    for (kind, field, name) in LISTED {
        for &tried in tried_values(kind, field) {
            cases.push(Case::floor(
                format!("{name} {tried}"),
                with(&base, kind, 0, field, tried),
            ));
        }
    }
    cases
}

/// Good in the low bytes, out of range in the high ones.
fn high_bytes() -> Vec<Case> {
    let base = base();
    let mut cases = Vec::new();
    for (kind, field, name) in LISTED {
        let good = value(&base, kind, 0, field);
        for tried in [good + (1 << 16), good + (1 << 24), u32::MAX] {
            cases.push(Case::floor(
                format!("{name} {tried}"),
                with(&base, kind, 0, field, tried),
            ));
        }
    }
    cases
}

fn last_records() -> Vec<Case> {
    let base = Floor::good(3, 2).with_beams_everywhere().bytes();
    let mut cases = Vec::new();
    for (kind, field, name) in &LISTED[10..] {
        let (last, tried) = (last_index(&base, *kind), 12_040);
        cases.push(Case::floor(
            format!("{name} {tried} in the last, {last}"),
            with(&base, *kind, last, *field, tried),
        ));
    }
    cases
}

/// Each side with a code of its own, so that taking one for another shows.
fn sides_told_apart() -> Vec<Case> {
    let base = base();
    [(1, "west"), (4, "east"), (16, "south"), (64, "north")]
        .into_iter()
        .map(|(weight, name)| {
            Case::floor(
                format!("{name} restrained, the others unrestrained"),
                with(&base, 4, 0, Field::C, 85 + weight),
            )
        })
        .collect()
}

fn columns_against_spans() -> Vec<Case> {
    let base = Floor::good(3, 2).bytes();
    let mut cases = Vec::new();
    for (direction, column, kind) in [("x", Field::A, 5), ("y", Field::B, 6)] {
        let base = with(&base, 4, 0, column, 600);
        for index in [0, last_index(&base, kind)] {
            for (span, column_tried) in [(1_200, 600), (1_200, 610), (1_180, 600)] {
                let bytes = with(&base, kind, index, Field::A, span);
                cases.push(Case::floor(
                    format!("{direction} span {index} of {span}, c{direction} {column_tried}"),
                    with(&bytes, 4, 0, column, column_tried),
                ));
            }
        }
    }
    for (direction, column, kind) in [("x", Field::A, 6), ("y", Field::B, 5)] {
        let bytes = with(&base, kind, 0, Field::A, 1_200);
        cases.push(Case::floor(
            format!("c{direction} 610 against a span of 1200 across"),
            with(&bytes, 4, 0, column, 610),
        ));
    }
    cases
}
