//! "Slab steel", held against the formulas of ACI 318-14 from which 01 has its inequalities.

use crate::fraction::{fraction, whole, Fraction};
use reference::steel::{answer, depth, Query};
use std::collections::BTreeSet;

/// The bounds of ACI 318-14 in mm and MPa.
struct Code {
    /// Moment in N·mm that As carries by 22.2 and the factor 0.9 of 21.2: 0.9·As·fy·(d − a/2), where
    /// a = As·fy/(0.85·fc·b).
    strength: Fraction,
    /// By 8.6.1.1: 0.0020 of the section, or 0.0018·420/fy of it.
    minimum: Fraction,
    /// What the strain of the steel, 0.003·(d − c)/c, has over 0.005, times c = a/β.
    strain: Fraction,
}

/// 0.85 up to 28 MPa, then 0.05 less for each 7 MPa, but at least 0.65.
fn beta(fc: i128) -> Fraction {
    match fc {
        ..=28 => fraction(85, 100),
        56.. => fraction(65, 100),
        _ => fraction(85, 100) - fraction(5, 100) * fraction(fc - 28, 7),
    }
}

fn code(query: Query, area: u128) -> Code {
    let [_, b, t, _, fc, fy] = query.numbers().map(|number| number as i128);
    let (d, area) = (whole(depth(query) as i128), whole(area as i128));
    let a = area * whole(fy) / (fraction(85, 100) * whole(fc * b));
    let c = a / beta(fc);
    let part = match fy {
        280 => fraction(20, 10_000),
        _ => fraction(18, 10_000) * fraction(420, fy),
    };
    Code {
        strength: fraction(9, 10) * area * whole(fy) * (d - a / whole(2)),
        minimum: part * whole(b * t),
        strain: fraction(3, 1000) * (d - c) - fraction(5, 1000) * c,
    }
}

/// By the code: whether it has steel enough, whether it strains enough. 1 N·cm is 10 N·mm.
fn enough(query: Query, area: u128) -> (bool, bool) {
    let code = code(query, area);
    let moment = whole(10 * query.m as i128);
    let steel = code.strength >= moment && whole(area as i128) >= code.minimum;
    (steel, code.strain >= whole(0))
}

pub fn queries() -> Vec<Query> {
    const SIZES: [[u128; 3]; 5] = [
        [1_000, 150, 124],
        [3_130, 200, 0],
        [12_000, 500, 475],
        [3, 90, 50],
        [997, 500, 51],
    ];
    const MOMENTS: [u128; 7] = [
        0,
        1_000,
        60_000,
        2_195_000,
        14_000_000,
        60_000_000,
        2_000_000_000,
    ];
    let mut queries = Vec::new();
    for [b, t, d] in SIZES {
        for fc in [20, 28, 29, 42, 55, 56, 60] {
            for fy in [280, 420, 520] {
                queries.extend(MOMENTS.map(|m| Query { m, b, t, d, fc, fy }));
            }
        }
    }
    queries
}

/// Of an area that is answered, one less is not enough. Where none is, the first that strains too
/// little has before it one that is not enough: strength grows up to there.
#[test]
fn least_by_the_code() {
    let mut seen = BTreeSet::new();
    for query in queries() {
        let (refused, area) = answer(query);
        if refused == 0 {
            assert_eq!(enough(query, area), (true, true), "{query:?}");
            assert!(!enough(query, area - 1).0, "{query:?}");
            let governs = code(query, area - 1).minimum > whole(area as i128 - 1);
            seen.insert(if governs { "minimum" } else { "moment" });
        } else {
            let first = (0..).find(|&area| !enough(query, area).1).unwrap();
            assert!(!enough(query, first - 1).0, "{query:?}");
            seen.insert("refused");
        }
    }
    assert_eq!(seen, BTreeSet::from(["minimum", "moment", "refused"]));
}
