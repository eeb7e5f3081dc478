//! A change of one record, in the words of a text.

mod forms;

pub use forms::read;

use crate::way::Way;
use floor::{Floor, Record};
use std::fmt;

#[derive(Clone, Copy, Debug, PartialEq, Eq)]
pub enum Change {
    Span(Way, u16, u32),
    /// Width and depth.
    Beam(Way, u16, (u32, u32)),
    /// Of the column on y line i and x line j: along x, along y.
    Offset([u16; 2], (u32, u32)),
    Dead(u32),
    Live(u32),
    /// Dead, live.
    Loads(u32, u32),
}

impl Change {
    /// The record to put into this floor. Of the loads it keeps the one that is not given.
    pub fn record(self, floor: &Floor) -> Record {
        let (kind, index, [a, b]) = match self {
            Change::Span(way, index, length) => (5 + way as u16, index, [length, 0]),
            Change::Beam(way, index, (width, depth)) => (7 + way as u16, index, [width, depth]),
            Change::Offset(lines, (x, y)) => (9, column(floor, lines), [x, y]),
            Change::Dead(dead) => (3, 0, [dead, floor.live]),
            Change::Live(live) => (3, 0, [floor.dead, live]),
            Change::Loads(dead, live) => (3, 0, [dead, live]),
        };
        Record {
            kind,
            index,
            fields: [a, b, 0],
        }
    }
}

/// No accepted floor has so many columns that this is the index of one: the library then says that there is none.
const NO_COLUMN: u16 = u16::MAX;

/// A column beyond the last y line would else be taken for one of the next row.
fn column(floor: &Floor, [i, j]: [u16; 2]) -> u16 {
    let across = floor.y_lines.len();
    let (i, j) = (usize::from(i), usize::from(j));
    let index = (i < across).then(|| j * across + i);
    let index = index.and_then(|index| u16::try_from(index).ok());
    index.unwrap_or(NO_COLUMN)
}

impl fmt::Display for Change {
    fn fmt(&self, to: &mut fmt::Formatter) -> fmt::Result {
        match self {
            Change::Span(way, index, length) => write!(to, "{} span {index} {length}", way.name()),
            Change::Beam(way, index, (width, depth)) => {
                write!(to, "{} line {index} beam {width} {depth}", way.name())
            }
            Change::Offset([i, j], (x, y)) => write!(to, "column {i} {j} offset {x} {y}"),
            Change::Dead(dead) => write!(to, "dead {dead}"),
            Change::Live(live) => write!(to, "live {live}"),
            Change::Loads(dead, live) => write!(to, "loads {dead} {live}"),
        }
    }
}
