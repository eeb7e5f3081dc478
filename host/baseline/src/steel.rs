//! "Slab steel", its default depth by 02, Six; refusals 11 and 12.

use crate::judge::materials_in_range;
use crate::Answer;

/// The moment in N·cm; width, thickness and depth in mm; concrete and steel in MPa.
#[derive(Clone, Copy, Debug, PartialEq, Eq)]
pub struct Query {
    pub m: u64,
    pub b: u64,
    pub t: u64,
    pub d: u64,
    pub fc: u64,
    pub fy: u64,
}

/// The least area of steel that carries the moment within the limits.
pub fn steel(query: Query) -> Answer {
    Answer::of(area(query), 0)
}

fn in_range(Query { m, b, t, d, fc, fy }: Query) -> bool {
    m <= 2_000_000_000
        && (1..=12_000).contains(&b)
        && (90..=500).contains(&t)
        && (d == 0 || (50..=t - 25).contains(&d))
        && fc <= 60
        && fy <= 520
        && materials_in_range(fc as u32, fy as u32)
}

fn area(query: Query) -> Result<u32, u32> {
    // 11: "steel query value out of range"
    if !in_range(query) {
        return Err(11);
    }
    let Query { m, b, t, d, fc, fy } = query;
    let depth = if d == 0 { default_depth(t) } else { d };
    let section = Section::of(b, t, depth, fc, fy);
    section.area(m).ok_or(12)
}

/// "From now on 0 stands for t − 38, the second layer" (02, Six)
#[inline]
pub fn default_depth(t: u64) -> u64 {
    t - 38
}

/// What bounds the areas of a width of slab, whatever its moment.
pub struct Section {
    fy: u64,
    block: u64,
    least: u64,
    most: u64,
    per_moment: u64,
}

impl Section {
    #[inline]
    pub fn of(b: u64, t: u64, depth: u64, fc: u64, fy: u64) -> Section {
        let block = 17 * fc * b * depth;
        Section {
            fy,
            block,
            least: match fy {
                280 => (2 * b * t).div_ceil(1_000),
                _ => (756 * b * t).div_ceil(1_000 * fy),
            },
            // "224000·As·fy ≤ 51·K·fc·b·d"
            most: 3 * k(fc) * block / (224_000 * fy),
            per_moment: 1_700 * fc * b,
        }
    }

    #[inline]
    pub fn area(&self, m: u64) -> Option<u32> {
        let wanted = self.per_moment * m;
        carrying(self.block, self.fy, wanted, self.least..=self.most)
    }
}

/// "K = 1190 up to fc 28, 910 from 56, between them 1470 − 10·fc"
fn k(fc: u64) -> u64 {
    1_470 - 10 * fc.clamp(28, 56)
}

/// The least area with "9·As·fy·(17·fc·b·d − 10·As·fy) ≥ 1700·fc·b·M".
///
/// The left side bends down, so its tangent at an area that is too small meets the right side at none that is too
/// large: each step rounds that meeting up and so never passes the least area.
fn carrying(block: u64, fy: u64, wanted: u64, areas: std::ops::RangeInclusive<u64>) -> Option<u32> {
    let mut area = *areas.start();
    while area <= *areas.end() {
        let force = area * fy;
        let carried = 9 * force * (block - 10 * force);
        if carried >= wanted {
            return Some(area as u32);
        }
        area += (wanted - carried).div_ceil(9 * fy * (block - 20 * force));
    }
    None
}
