//! Floors that break one limit in one place, and the same floors at that limit: "equality always passes".
//!
//! A yes or no that stops looking too early is wrong on the first and right on the second. There are many, and the
//! printing program, which has the full verdict, is not run on them.

mod panels;
mod refused;

pub use refused::refused;

use super::{Described, LAYOUTS};
use crate::places::shorter_adjoining;
use floor::{Floor, NO_BEAM};
use reference::layout::Layout;
use std::collections::BTreeSet;

#[derive(Clone, Debug)]
pub struct Single {
    pub words: String,
    /// As the verdict counts it.
    pub limit: u128,
    /// How many places are past the limit: one, but more where no floor has fewer.
    pub places: usize,
    pub at: Floor,
    pub past: Floor,
}

impl Single {
    fn of(limit: u128, words: String, at: Floor, alter: impl Fn(&mut Floor)) -> Single {
        let mut past = at.clone();
        alter(&mut past);
        Single {
            words,
            limit,
            places: 1,
            at,
            past,
        }
    }

    fn across(&self) -> Single {
        Single {
            words: format!("{}, across", self.words),
            at: self.at.transposed(),
            past: self.past.transposed(),
            ..*self
        }
    }
}

/// What is broken in floors of these bays and this layout, along x.
type Way = fn((usize, usize), Layout) -> Vec<Single>;

const WAYS: [Way; 7] = [
    few_bays,
    neighbours,
    offsets,
    loads,
    panels::long,
    panels::unlike,
    panels::thin,
];

/// As few and as many as there can be on a floor that is clear.
const BAYS: [(usize, usize); 4] = [(3, 3), (3, 12), (12, 3), (12, 12)];

/// Along x and across.
pub fn all() -> Vec<Single> {
    let mut all = Vec::new();
    for (nx, ny) in BAYS {
        for (layout, in_words) in LAYOUTS {
            for mut single in WAYS.iter().flat_map(|way| way((nx, ny), layout)) {
                single.words = format!("{}, {nx}x{ny}, {in_words}", single.words);
                let across = single.across();
                all.extend([single, across]);
            }
        }
    }
    all
}

/// Past the limit, at it, and refused. Some have the same floor at the limit, and some are their own transpose; each
/// stands here once.
pub fn floors() -> Vec<Described> {
    let mut floors = Vec::new();
    for Single {
        words, at, past, ..
    } in all()
    {
        floors.push(Described::floor(format!("past the limit, {words}"), &past));
        floors.push(Described::floor(format!("at the limit, {words}"), &at));
    }
    floors.extend(refused().into_iter().map(|(_, floor)| floor));
    let mut seen = BTreeSet::new();
    floors.retain(|floor| seen.insert(floor.bytes.clone()));
    floors
}

const BEAM: (u32, u32) = (300, 600);

fn on_lines(bays: usize, layout: Layout) -> Vec<(u32, u32)> {
    let mut lines = vec![BEAM; bays + 1];
    match layout {
        Layout::Everywhere => (),
        Layout::OuterLinesOnly => lines[1..bays].fill(NO_BEAM),
        Layout::NoBeams => lines.fill(NO_BEAM),
    }
    lines
}

/// Bays of 6,000, columns of 400 and a slab of 200 that is thick enough.
fn clear((nx, ny): (usize, usize), layout: Layout) -> Floor {
    Floor {
        x_lines: on_lines(ny, layout),
        y_lines: on_lines(nx, layout),
        ..Floor::clear(nx, ny)
    }
}

/// 1: "nx or ny below 3." Two x bays in place of three.
fn few_bays((nx, ny): (usize, usize), layout: Layout) -> Vec<Single> {
    if nx > 3 {
        return Vec::new();
    }
    let at = clear((nx, ny), layout);
    let two = clear((2, ny), layout);
    vec![Single::of(1, "two x bays".to_string(), at, |past| {
        *past = two.clone();
    })]
}

/// 4: "Neighbours 6,000 and 4,000 pass, 3,980 breaks." Next to 5,000 both pass.
fn neighbours((nx, ny): (usize, usize), layout: Layout) -> Vec<Single> {
    let mut singles = Vec::new();
    for low in [0, nx - 2] {
        for (longer, shorter) in [(low, low + 1), (low + 1, low)] {
            let mut at = clear((nx, ny), layout);
            at.x_spans.fill(5_000);
            at.x_spans[longer] = 6_000;
            at.x_spans[shorter] = 4_000;
            let words = format!("neighbours {low}, span {longer} the longer");
            singles.push(Single::of(4, words, at, |past| {
                past.x_spans[shorter] = 3_980
            }));
        }
    }
    singles
}

/// The y line and the x line of columns: corners, halfway along the edges, inside.
fn columns((nx, ny): (usize, usize)) -> [(usize, usize); 10] {
    let (i, j) = (nx / 2, ny / 2);
    [
        (0, 0),
        (nx, 0),
        (0, ny),
        (nx, ny),
        (i, 0),
        (i + 1, ny),
        (0, j),
        (nx, j),
        (i, j),
        (i + 1, j + 1),
    ]
}

/// 8: "ten times an offset exceeds a span adjoining that column in its direction." Every column is as far off its
/// lines as it may be. The span halfway is the shorter one of two, the higher one of line i and the lower one of line
/// i + 1.
fn offsets((nx, ny): (usize, usize), layout: Layout) -> Vec<Single> {
    let mut at = clear((nx, ny), layout);
    at.x_spans[nx / 2] = 5_000;
    at.y_spans[ny / 2] = 5_000;
    for (index, offset) in at.offsets.iter_mut().enumerate() {
        let (i, j) = (index % (nx + 1), index / (nx + 1));
        let most = (
            shorter_adjoining(i, &at.x_spans) / 10,
            shorter_adjoining(j, &at.y_spans) / 10,
        );
        *offset = most;
    }
    let single = |(i, j): (usize, usize)| {
        let words = format!("offset of column {i}, {j}");
        Single::of(8, words, at.clone(), |past| {
            past.offsets[j * (nx + 1) + i].0 += 1
        })
    };
    columns((nx, ny)).map(single).to_vec()
}

/// 16: "L = 2D passes."
fn loads(bays: (usize, usize), layout: Layout) -> Vec<Single> {
    let at = Floor {
        dead: 5_000,
        live: 10_000,
        ..clear(bays, layout)
    };
    vec![Single::of(16, "loads".to_string(), at, |past| {
        past.live += 1
    })]
}
