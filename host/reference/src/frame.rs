//! The frames of a floor: each line with the slab beside it, from one outer end to the other.
//!
//! All speak of a floor that is not refused.

use crate::floor_file::{records_of_kind, sides, sizes};
use crate::layout::{layout, x_lines, y_lines, Layout, Line};
use crate::panel::{adjoining, columns, x_line_alphas, x_spans, y_line_alphas, y_spans};
use crate::stiffness::Adjoining;

/// What the frames of a floor have in common.
#[derive(Clone, Copy, Debug, PartialEq, Eq)]
pub struct Slab {
    pub layout: Layout,
    pub t: u128,
    pub dead: u128,
    pub live: u128,
}

/// The outer end of a frame.
#[derive(Clone, Copy, Debug, PartialEq, Eq)]
pub struct OuterEnd {
    /// "each 0 columns, 1 unrestrained, 2 fully restrained"
    pub side: u128,
    /// The outer line that runs across the frame at this end.
    pub line_across: Line,
}

#[derive(Clone, Debug, PartialEq, Eq)]
pub struct Frame {
    pub slab: Slab,
    /// The spans along the line.
    pub spans: Vec<u128>,
    /// The column's size along the line.
    pub column: u128,
    /// The spans and, on an outer line, the column across the line.
    pub adjoining: Adjoining,
    pub alpha: u128,
    pub low_end: OuterEnd,
    pub high_end: OuterEnd,
}

fn slab(floor: &[u8]) -> Slab {
    let loads = records_of_kind(floor, 3)[0];
    Slab {
        layout: layout(floor).expect("refusal 7 applies"),
        t: sizes(floor).t,
        dead: loads.a,
        live: loads.b,
    }
}

/// From the first of the lines across to the last of them.
fn outer_ends(lines_across: &[Line], low_side: u128, high_side: u128) -> (OuterEnd, OuterEnd) {
    let end = |side, line_across| OuterEnd { side, line_across };
    let last = lines_across.len() - 1;
    (
        end(low_side, lines_across[0]),
        end(high_side, lines_across[last]),
    )
}

/// "An x line runs along x", from y line 0, which "is west", to the last one, east.
pub fn x_frames(floor: &[u8]) -> Vec<Frame> {
    let (cx, cy) = columns(floor);
    let sides = sides(records_of_kind(floor, 4)[0].c);
    let (low_end, high_end) = outer_ends(&y_lines(floor), sides.west, sides.east);
    let mut frames = Vec::new();
    for (line, alpha) in x_line_alphas(floor).into_iter().enumerate() {
        frames.push(Frame {
            slab: slab(floor),
            spans: x_spans(floor),
            column: cx,
            adjoining: adjoining(line, &y_spans(floor), cy),
            alpha,
            low_end,
            high_end,
        });
    }
    frames
}

/// A y line runs along y, from x line 0, which "is south", to the last one, north.
pub fn y_frames(floor: &[u8]) -> Vec<Frame> {
    let (cx, cy) = columns(floor);
    let sides = sides(records_of_kind(floor, 4)[0].c);
    let (low_end, high_end) = outer_ends(&x_lines(floor), sides.south, sides.north);
    let mut frames = Vec::new();
    for (line, alpha) in y_line_alphas(floor).into_iter().enumerate() {
        frames.push(Frame {
            slab: slab(floor),
            spans: y_spans(floor),
            column: cy,
            adjoining: adjoining(line, &x_spans(floor), cx),
            alpha,
            low_end,
            high_end,
        });
    }
    frames
}
