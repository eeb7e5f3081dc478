//! Where the library has what stands on a line: the x lines come first, then the y lines.

use crate::way::Way;
use floor::Floor;

/// The number of a span's record in the table.
pub fn record(floor: &Floor, way: Way, line: usize, span: usize) -> usize {
    let spans = |way: Way| way.spans(floor).len();
    before(floor, way, spans) + line * spans(way) + span
}

/// The number of a support's entry among the governing moments.
pub fn entry(floor: &Floor, way: Way, line: usize, support: usize) -> usize {
    let supports = |way: Way| way.spans(floor).len() + 1;
    before(floor, way, supports) + line * supports(way) + support
}

/// What stands before the lines along a way, of so many things on each line.
fn before(floor: &Floor, way: Way, on_line: impl Fn(Way) -> usize) -> usize {
    match way {
        Way::X => 0,
        Way::Y => Way::X.lines(floor) * on_line(Way::X),
    }
}
