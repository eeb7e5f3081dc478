//! "Line stiffness": widths, α and torsion of a floor's lines.

use crate::floor::{Beam, Floor, MOST_LINES, X, Y};

/// What lies across a line: the spans at its low and its high side, 0 past an outer line.
#[derive(Clone, Copy)]
pub struct Across {
    pub low: u32,
    pub high: u32,
    /// The column across, counted on an outer line only.
    pub column: u32,
}

impl Across {
    pub fn of(floor: &Floor, way: usize, line: usize) -> Across {
        let spans = floor.spans(1 - way);
        let low = line.checked_sub(1).map_or(0, |low| spans[low]);
        let high = spans.get(line).copied().unwrap_or(0);
        let outer = low == 0 || high == 0;
        Across {
            low,
            high,
            column: if outer { floor.column[1 - way] } else { 0 },
        }
    }

    pub fn is_outer(self) -> bool {
        self.column > 0
    }

    /// 2W: "inside, half of each adjoining span; on an outer line half the span plus half the column
    /// across"
    pub fn twice_width(self) -> u32 {
        self.low + self.high + self.column
    }

    /// Four times wc: "on each side of the line, a quarter of min(l1, span on that side); past an outer line, half the
    /// column"
    pub fn four_strips(self, l1: u32) -> u32 {
        l1.min(self.low) + l1.min(self.high) + 2 * self.column
    }

    /// "l2 is the mean of adjoining spans inside and the whole panel span on an outer line."
    pub fn l2(self) -> u32 {
        let both = self.low + self.high;
        if self.is_outer() {
            both
        } else {
            both / 2
        }
    }
}

/// Twelve times the inertia of a beam with its flanges (02, Two): "b·h³ + p·t³ + 3·(b·h)·(p·t)·(h − t)²/(b·h + p·t),
/// the last term rounded down". Its dividend is largest inside for 1,000 by 1,500 under 375, about a quarter of 2⁶⁴.
fn twelve_inertias(b: u64, h: u64, t: u64, flanges: u64) -> u64 {
    let below = h - t;
    let p = flanges * flange(h, t);
    let (web, wings) = (b * h, p * t);
    web * h * h + wings * t * t + 3 * web * wings * below * below / (web + wings)
}

/// "α becomes 10000 times that over W·t³, rounded down."; "0 without a beam".
pub fn alpha(floor: &Floor, way: usize, line: usize) -> u64 {
    let beam = floor.beams(way)[line];
    if !beam.is_there() {
        return 0;
    }
    let across = Across::of(floor, way, line);
    let flanges = if across.is_outer() { 1 } else { 2 };
    let (b, h, t) = (
        u64::from(beam.width),
        u64::from(beam.depth),
        u64::from(floor.t),
    );
    20_000 * twelve_inertias(b, h, t, flanges) / (u64::from(across.twice_width()) * t.pow(3))
}

/// The α of every line, by the direction that it runs along.
pub struct Stiffness(pub [[u64; MOST_LINES]; 2]);

impl Stiffness {
    pub fn of(floor: &Floor) -> Stiffness {
        let mut alphas = [[0; MOST_LINES]; 2];
        for way in [X, Y] {
            for (line, place) in alphas[way][..floor.lines(way)].iter_mut().enumerate() {
                *place = alpha(floor, way, line);
            }
        }
        Stiffness(alphas)
    }
}

/// "Each rectangle, x the shorter side, gives x³(100y − 63x)."
fn rectangle(one: u64, other: u64) -> u64 {
    let (x, y) = (one.min(other), one.max(other));
    x.pow(3) * (100 * y - 63 * x)
}

/// "flange f = min(h − t, 4t)"
fn flange(h: u64, t: u64) -> u64 {
    (h - t).min(4 * t)
}

/// "Torsion of an outer beam"
pub fn torsion(beam: Beam, t: u64) -> u64 {
    if !beam.is_there() {
        return 0;
    }
    let (b, h) = (u64::from(beam.width), u64::from(beam.depth));
    let flange = flange(h, t);
    let upright = rectangle(b, h) + rectangle(flange, t);
    let lying = rectangle(b, h - t) + rectangle(b + flange, t);
    upright.max(lying)
}
