//! Which lines of the floor a beam is given to.

use super::words::Words;
use crate::way::Way;
use std::iter::StepBy;
use std::ops::Range;

#[derive(Clone, Copy)]
pub enum Lines {
    One(Way, usize),
    Along(Way),
    Outer,
    Inner,
    All,
}

const GROUPS: [(&str, Lines); 5] = [
    ("x lines", Lines::Along(Way::X)),
    ("y lines", Lines::Along(Way::Y)),
    ("outer lines", Lines::Outer),
    ("inner lines", Lines::Inner),
    ("all lines", Lines::All),
];

impl Lines {
    /// The line or lines that the words name, if they begin so.
    pub fn read(words: &mut Words) -> Option<Result<Lines, String>> {
        if let Some((_, lines)) = GROUPS.iter().find(|(key, _)| words.pass(key)) {
            return Some(Ok(*lines));
        }
        let way = [Way::X, Way::Y][words.one_of(&["x line", "y line"])?];
        let number = words.number(&format!("the {} line's number", way.name()));
        Some(number.map(|number| Lines::One(way, number as usize)))
    }

    /// Their numbers, of so many lines one way. A line that is named by its number need not be there.
    pub fn numbers(self, way: Way, count: usize) -> StepBy<Range<usize>> {
        let last = count - 1;
        match self {
            Lines::One(only, number) if way == only => (number..number + 1).step_by(1),
            Lines::Along(only) if way == only => (0..count).step_by(1),
            Lines::One(..) | Lines::Along(_) => (0..0).step_by(1),
            Lines::Outer => (0..count).step_by(last.max(1)),
            Lines::Inner => (1..last).step_by(1),
            Lines::All => (0..count).step_by(1),
        }
    }
}
