//! Strips where both sides of an inequality are equal, which passes, and just past that.

use super::limits::of_strip;
use super::strength::{greatest_area, greatest_moment, least_area};
use super::Described;
use reference::steel::{depth, Query};

pub fn queries() -> Vec<Described> {
    let mut queries = moments();
    for [b, t, d, fc, fy] in [STRAINS, MINIMA].concat() {
        let m = 0;
        queries.extend(of_strip(Query { m, b, t, d, fc, fy }));
    }
    queries
}

/// b, t, d, fc, fy where 51·K·fc·b·d is a multiple of 224000·fy: 51·1190·28·800·160 is 3468 times
/// 224000·280.
pub const STRAINS: &[[u128; 5]] = &[
    [800, 190, 160, 28, 280],
    [800, 198, 0, 28, 280],
    [800, 200, 160, 28, 420],
    [400, 190, 160, 26, 520],
    [50, 90, 64, 35, 280],
    [200, 90, 0, 35, 420],
    [50, 102, 0, 35, 420],
    [400, 500, 0, 35, 420],
    [1_400, 250, 224, 55, 280],
    [700, 262, 0, 55, 420],
    [1_600, 400, 364, 55, 520],
    [100, 190, 160, 56, 280],
    [100, 106, 80, 56, 420],
    [100, 190, 160, 56, 520],
    [50, 160, 128, 60, 520],
];

/// b, t, d, fc, fy where 2·b·t is a multiple of 1000, or 756·b·t of 1000·fy, and with 1 mm more or
/// less of b or t.
pub const MINIMA: &[[u128; 5]] = &[
    [999, 125, 99, 30, 280],
    [1_000, 125, 99, 30, 280],
    [1_001, 125, 99, 30, 280],
    [1_400, 125, 99, 30, 420],
    [1_400, 124, 98, 30, 420],
    [1_400, 126, 100, 30, 420],
    [1_300, 100, 74, 30, 520],
    [1_299, 100, 74, 30, 520],
    [1_301, 100, 74, 30, 520],
];

/// Whether 9·As·fy·(17·fc·b·d − 10·As·fy) is a multiple of 1700·fc·b.
pub fn moment_is_whole(strip: Query, area: u128) -> bool {
    let Query { b, fc, fy, .. } = strip;
    let left = 9 * area * fy * (17 * fc * b * depth(strip) - 10 * area * fy);
    left.is_multiple_of(1700 * fc * b)
}

/// A few whole moments of each strip, each with 1 less and 1 more.
fn moments() -> Vec<Described> {
    let mut queries = Vec::new();
    for (b, t, d) in [
        (1_000, 150, 124),
        (1_000, 150, 0),
        (850, 200, 170),
        (50, 500, 475),
    ] {
        for fc in [20, 25, 28, 34, 50, 56] {
            for fy in [280, 420, 520] {
                let m = 0;
                queries.extend(moments_of(Query { m, b, t, d, fc, fy }));
            }
        }
    }
    queries
}

fn moments_of(strip: Query) -> Vec<Described> {
    let areas = least_area(strip)..=greatest_area(strip);
    let whole = areas.filter(|&area| moment_is_whole(strip, area));
    let mut queries = Vec::new();
    for area in whole.take(2) {
        let m = greatest_moment(strip, area);
        for m in [m - 1, m, m + 1] {
            let query = Query { m, ..strip };
            queries.push(Described::new(
                format!("near {area}, {:?}", query.numbers()),
                query,
            ));
        }
    }
    queries
}
