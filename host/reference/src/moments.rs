//! "Moments": static moments and section totals.

use crate::layout::Layout;
use crate::stiffness::whole_share;

/// "Clear length is max(l1 − column, 0.65·l1)." The column is its size along the frame.
pub fn clear_length(l1: u128, column: u128) -> u128 {
    (l1 - column).max(13 * whole_share(l1, 20))
}

/// "Static moment Mo, N·m, rounded up: (12D + 16L)·W·ln²/80000000000."
pub fn static_moment(dead: u128, live: u128, frame_width: u128, clear_length: u128) -> u128 {
    ((12 * dead + 16 * live) * frame_width * clear_length.pow(2)).div_ceil(80000000000)
}

/// "Each section total is p·Mo in N·cm, p in percent."
pub fn section_total(percent: u128, static_moment: u128) -> u128 {
    percent * static_moment
}

/// "Inner span: 65 at both ends, 35 between."
pub const INNER_SPAN_ENDS: u128 = 65;
pub const INNER_SPAN_BETWEEN: u128 = 35;

/// A row of the end-span table, in percent.
#[derive(Clone, Copy, Debug, PartialEq, Eq)]
pub struct EndSpan {
    pub outer_end: u128,
    pub between: u128,
    pub inner_end: u128,
}

/// `side` is the code of the side at the span's outer end.
pub fn end_span(side: u128, layout: Layout) -> EndSpan {
    let (outer_end, between, inner_end) = match (side, layout) {
        // "The side's own code decides first, then the layout."
        // "unrestrained"
        (1, _) => (0, 63, 75),
        // "fully restrained"
        (2, _) => (65, 35, 65),
        // "beams everywhere"
        (0, Layout::Everywhere) => (16, 57, 70),
        // "no beams"
        (0, Layout::NoBeams) => (26, 52, 70),
        // "edge beams only"
        (0, Layout::OuterLinesOnly) => (30, 50, 70),
        _ => unreachable!("refusal 5 applies"),
    };
    EndSpan {
        outer_end,
        between,
        inner_end,
    }
}
