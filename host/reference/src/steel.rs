//! "Slab steel", with "The default depth." (02, Six), and, of "Refusal numbers, in the order tried", 11 and 12.

use crate::floor_file::materials_are_in_range;
use crate::refusals::SUCCESS;

/// A strip of slab: its moment in N·cm, its width, thickness and depth in mm, its materials in MPa.
#[derive(Clone, Copy, Debug, PartialEq, Eq, PartialOrd, Ord)]
pub struct Query {
    pub m: u128,
    pub b: u128,
    pub t: u128,
    /// Or 0: see `depth`.
    pub d: u128,
    pub fc: u128,
    pub fy: u128,
}

impl Query {
    /// In the order of 01: M, b, t, d, fc, fy.
    pub fn numbers(self) -> [u128; 6] {
        [self.m, self.b, self.t, self.d, self.fc, self.fy]
    }

    pub fn of([m, b, t, d, fc, fy]: [u128; 6]) -> Query {
        Query { m, b, t, d, fc, fy }
    }
}

/// "Query M 0..2,000,000,000 N·cm, b 1..12,000, t 90..500, d 50..t − 25 or 0, fc and fy as above."
fn values_are_in_range(query: Query) -> bool {
    let Query { m, b, t, d, fc, fy } = query;
    (0..=2_000_000_000).contains(&m)
        && (1..=12_000).contains(&b)
        && (90..=500).contains(&t)
        && (d == 0 || (50..=t - 25).contains(&d))
        && materials_are_in_range(fc, fy)
}

/// "From now on 0 stands for t − 38, the second layer" (02, Six), where 01 had t − 26. "At t = 90 the default is 52,
/// still in range."
pub fn depth(query: Query) -> u128 {
    match query.d {
        0 => query.t - 38,
        d => d,
    }
}

/// "K = 1190 up to fc 28, 910 from 56, between them 1470 − 10·fc"
pub fn k(fc: u128) -> u128 {
    match fc {
        ..=28 => 1190,
        56.. => 910,
        _ => 1470 - 10 * fc,
    }
}

/// "9·As·fy·(17·fc·b·d − 10·As·fy) ≥ 1700·fc·b·M"
///
/// Signed, since the bracket falls below 0 for a large As.
pub fn moment_is_carried(query: Query, area: u128) -> bool {
    let [m, b, _, _, fc, fy] = query.numbers().map(|number| number as i128);
    let [d, area] = [depth(query), area].map(|number| number as i128);
    9 * area * fy * (17 * fc * b * d - 10 * area * fy) >= 1700 * fc * b * m
}

/// "1000·As ≥ 2·b·t for fy 280, else 1000·fy·As ≥ 756·b·t"
pub fn minimum_is_met(query: Query, area: u128) -> bool {
    let Query { b, t, fy, .. } = query;
    if fy == 280 {
        1000 * area >= 2 * b * t
    } else {
        1000 * fy * area >= 756 * b * t
    }
}

/// "224000·As·fy ≤ 51·K·fc·b·d (strain 0.005)"
pub fn strain_is_kept(query: Query, area: u128) -> bool {
    let Query { b, fc, fy, .. } = query;
    224000 * area * fy <= 51 * k(fc) * fc * b * depth(query)
}

/// "Answer the least whole As with" all three: 0, 1, 2 and so on are tried.
///
/// Past the strain limit none is left to try: its left side grows with As while its right side stays,
/// so every larger As is past it too.
fn least_area(query: Query) -> Option<u128> {
    let mut area = 0;
    while strain_is_kept(query, area) {
        if minimum_is_met(query, area) && moment_is_carried(query, area) {
            return Some(area);
        }
        area += 1;
    }
    None
}

/// Refusal and area. "Refused queries answer 0 mm or 0 mm²."
pub fn answer(query: Query) -> (u128, u128) {
    // 11: "steel query value out of range"
    if !values_are_in_range(query) {
        return (11, 0);
    }
    match least_area(query) {
        Some(area) => (SUCCESS, area),
        // 12: "no steel area fits"
        None => (12, 0),
    }
}

/// `answer` by the six numbers.
pub fn steel(m: u128, b: u128, t: u128, d: u128, fc: u128, fy: u128) -> (u128, u128) {
    answer(Query { m, b, t, d, fc, fy })
}
