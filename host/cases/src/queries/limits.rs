//! Strips at what the minimum bears and at what the strain limit leaves, and just past both.

use super::strength::{greatest_area, greatest_moment, least_area};
use super::Described;
use reference::steel::Query;

/// K changes its rule between 28 and 29 and between 55 and 56.
const FC: [u128; 11] = [20, 21, 27, 28, 29, 42, 54, 55, 56, 57, 60];
const FY: [u128; 3] = [280, 420, 520];

/// b, t, d: among them slabs so thick for their depth that the minimum is past the strain limit.
const SIZES: [(u128, u128, u128); 8] = [
    (1_000, 150, 124),
    (3_000, 200, 0),
    (2_650, 180, 155),
    (7, 90, 0),
    (12_000, 90, 50),
    (12_000, 500, 0),
    (11, 500, 50),
    (1_003, 500, 50),
];

pub fn queries() -> Vec<Described> {
    let mut queries = Vec::new();
    for (b, t, d) in SIZES {
        for fc in FC {
            for fy in FY {
                let m = 0;
                queries.extend(of_strip(Query { m, b, t, d, fc, fy }));
            }
        }
    }
    queries
}

pub fn of_strip(strip: Query) -> Vec<Described> {
    let [_, b, t, d, fc, fy] = strip.numbers();
    let words = format!("b {b}, t {t}, d {d}, fc {fc}, fy {fy}");
    let (least, greatest) = (least_area(strip), greatest_area(strip));
    if least > greatest {
        return vec![Described::new(
            format!("{words}, no area for M 0: {least} is too much"),
            strip,
        )];
    }
    let mut queries = Vec::new();
    for (name, area) in [("minimum", least), ("strain limit", greatest)] {
        let carried = greatest_moment(strip, area).min(2_000_000_000);
        for (more, m) in [("", carried), (" and 1 more", carried + 1)] {
            queries.push(Described::new(
                format!("{words}, up to the {name} of {area}{more}"),
                Query { m, ..strip },
            ));
        }
    }
    queries
}
