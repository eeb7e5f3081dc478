//! "Least thickness", with "Thin slabs at weak edges" (02, Three).

use crate::floor::{Floor, MOST_BAYS, X, Y};
use crate::judge::Layout;
use crate::lines::{alpha, Stiffness};

/// What a panel asks of t: `t·factor ≥ load` and `t ≥ least`.
struct Asked {
    factor: u64,
    load: u64,
    least: u64,
}

/// Of a panel by its clear spans, "span − column", and S, "the sum of its four line α", which counts with beams
/// everywhere.
fn asked(s: u64, x: u32, y: u32, fy: u32, n: u32) -> Asked {
    let (ln, sn) = (x.max(y), x.min(y));
    let load = u64::from(ln * sn) * u64::from(1_120 + fy);
    if s > 80_000 {
        Asked {
            factor: (1_400 * (36 * sn + 9 * ln)).into(),
            load,
            least: 90,
        }
    } else if s > 8_000 {
        let stiffer = 5 * u64::from(ln) * (s - 8_000);
        Asked {
            factor: 1_400 * (1_440_000 * u64::from(sn) + stiffer),
            load: 40_000 * load,
            least: 125,
        }
    } else {
        Asked {
            factor: n.into(),
            load: ln.into(),
            least: 125,
        }
    }
}

/// "n for outer panel without edge beams, outer with, inner": the last two are the same, and "an outer panel with
/// such a beam counts as having none" (02, Three).
fn n(fy: u32, bare: bool) -> u32 {
    match fy {
        280 if bare => 33,
        280 => 36,
        420 if bare => 30,
        420 => 33,
        _ if bare => 28,
        _ => 31,
    }
}

/// "an outer line with α below 8000" (02, Three), of the two lines beside a bay. A line without a beam has 0.
fn weak_edge(alphas: [u64; 2], bay: usize, bays: usize) -> bool {
    bay == 0 && alphas[0] < 8_000 || bay + 1 == bays && alphas[1] < 8_000
}

fn clear(floor: &Floor, way: usize, bay: usize) -> u32 {
    floor.spans(way)[bay] - floor.column[way]
}

/// Of one panel.
pub fn least(floor: &Floor, layout: Layout, i: usize, j: usize) -> u32 {
    let beside = |way: usize, line: usize| [alpha(floor, way, line), alpha(floor, way, line + 1)];
    let (on_x, on_y) = (beside(X, j), beside(Y, i));
    let s = match layout {
        Layout::Everywhere => on_x[0] + on_x[1] + on_y[0] + on_y[1],
        _ => 0,
    };
    let [nx, ny] = floor.bays;
    let weak = weak_edge(on_y, i, nx) || weak_edge(on_x, j, ny);
    let (x, y) = (clear(floor, X, i), clear(floor, Y, j));
    let asked = asked(s, x, y, floor.fy, n(floor.fy, weak));
    let answer = asked.load.div_ceil(asked.factor).max(asked.least);
    match weak && s > 8_000 {
        // "10t ≥ 11 times the answer of 01"
        true => (11 * answer).div_ceil(10) as u32,
        false => answer as u32,
    }
}

/// 64: "t below some panel's least thickness."
pub fn too_thin(floor: &Floor, layout: Layout, stiffness: &Stiffness) -> bool {
    match layout {
        Layout::NoBeams => too_thin_without(floor),
        _ => too_thin_with_beams(floor, layout, stiffness),
    }
}

/// A bay of a direction, with the two lines beside it.
#[derive(Clone, Copy, Default)]
pub struct Bay {
    clear: u32,
    /// With beams everywhere the sum of their α.
    pub beside: u64,
    weak: bool,
}

impl Bay {
    pub fn of(floor: &Floor, layout: Layout, way: usize, bay: usize, beside: [u64; 2]) -> Bay {
        Bay {
            clear: clear(floor, way, bay),
            beside: match layout {
                Layout::Everywhere => beside[0] + beside[1],
                _ => 0,
            },
            weak: weak_edge(beside, bay, floor.bays[way]),
        }
    }
}

pub fn bays(floor: &Floor, layout: Layout, way: usize, stiffness: &Stiffness) -> [Bay; MOST_BAYS] {
    let alphas = &stiffness.0[1 - way];
    let mut bays = [Bay::default(); MOST_BAYS];
    for (bay, place) in bays[..floor.bays[way]].iter_mut().enumerate() {
        *place = Bay::of(floor, layout, way, bay, [alphas[bay], alphas[bay + 1]]);
    }
    bays
}

/// What all panels share.
pub struct Slab {
    t: u64,
    /// "10t ≥ 11 times the answer of 01" where 10t/11, rounded down, is not below that answer.
    at_weak_edges: u64,
    fy: u32,
    n: u32,
    n_at_weak_edges: u32,
}

impl Slab {
    pub fn of(floor: &Floor) -> Slab {
        let t = u64::from(floor.t);
        Slab {
            t,
            at_weak_edges: 10 * t / 11,
            fy: floor.fy,
            n: n(floor.fy, false),
            n_at_weak_edges: n(floor.fy, true),
        }
    }

    /// For the panel where two bays cross.
    #[inline(always)]
    pub fn thin(&self, column: &Bay, row: &Bay) -> bool {
        let s = column.beside + row.beside;
        let (mut t, mut n) = (self.t, self.n);
        if column.weak || row.weak {
            n = self.n_at_weak_edges;
            if s > 8_000 {
                t = self.at_weak_edges;
            }
        }
        let asked = asked(s, column.clear, row.clear, self.fy, n);
        t * asked.factor < asked.load || t < asked.least
    }
}

fn too_thin_with_beams(floor: &Floor, layout: Layout, stiffness: &Stiffness) -> bool {
    let slab = Slab::of(floor);
    let columns = &bays(floor, layout, X, stiffness)[..floor.bays[X]];
    let rows = &bays(floor, layout, Y, stiffness)[..floor.bays[Y]];
    rows.iter()
        .any(|row| columns.iter().any(|column| slab.thin(column, row)))
}

/// No inner panel asks for more than an outer one of the same ln, and every span lies in an outer panel: the longest clear
/// span decides.
pub fn too_thin_without(floor: &Floor) -> bool {
    let longest = |way: usize| {
        let span = floor.spans(way).iter().max();
        span.map_or(0, |span| span - floor.column[way])
    };
    let ln = longest(X).max(longest(Y));
    floor.t * n(floor.fy, true) < ln || floor.t < 125
}
