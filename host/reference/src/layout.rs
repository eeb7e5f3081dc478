//! Which lines have beams: everywhere, on the outer lines only, or nowhere.

use crate::floor_file::{records_of_kind, sizes, Record};

/// "Layouts allowed: beams on every line; on the four outer lines only; on none."
#[derive(Clone, Copy, Debug, PartialEq, Eq)]
pub enum Layout {
    Everywhere,
    OuterLinesOnly,
    NoBeams,
}

#[derive(Clone, Copy, Debug, PartialEq, Eq)]
pub struct Line {
    pub outer: bool,
    pub width: u128,
    pub depth: u128,
}

impl Line {
    /// "x line 0 is south, y line 0 is west": the first and the last line of a direction are outer.
    fn of(beam: Record, last: u128) -> Line {
        Line {
            outer: beam.index == 0 || beam.index == last,
            width: beam.a,
            depth: beam.b,
        }
    }

    /// "A beam record of zeros means no beam"
    pub fn has_beam(self) -> bool {
        (self.width, self.depth) != (0, 0)
    }
}

/// "7 beam on x line": the x lines are 0 to ny.
pub fn x_lines(floor: &[u8]) -> Vec<Line> {
    let last = sizes(floor).ny;
    let beams = records_of_kind(floor, 7).into_iter();
    beams.map(|beam| Line::of(beam, last)).collect()
}

/// "8 beam on y line": the y lines are 0 to nx.
pub fn y_lines(floor: &[u8]) -> Vec<Line> {
    let last = sizes(floor).nx;
    let beams = records_of_kind(floor, 8).into_iter();
    beams.map(|beam| Line::of(beam, last)).collect()
}

pub fn lines(floor: &[u8]) -> Vec<Line> {
    [x_lines(floor), y_lines(floor)].concat()
}

/// `None` where the layout is not allowed.
pub fn layout(floor: &[u8]) -> Option<Layout> {
    let lines = lines(floor);
    // "Where the first two coincide the floor counts as beams everywhere": so this one is asked first.
    if lines.iter().all(|line| line.has_beam()) {
        Some(Layout::Everywhere)
    } else if lines.iter().all(|line| line.has_beam() == line.outer) {
        Some(Layout::OuterLinesOnly)
    } else if lines.iter().all(|line| !line.has_beam()) {
        Some(Layout::NoBeams)
    } else {
        None
    }
}
