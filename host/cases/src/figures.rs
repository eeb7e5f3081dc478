//! The figures that 01, document 000 and document 004 print, with the answers of the reference.
//!
//! On standard input a floor with questions is, in numbers of 4 bytes, little-endian: the floor's
//! length and how many questions there are; the floor's bytes; and of each question the figure's number
//! in docs/FIGURES.md, what is asked, and the printed figure. Floors follow one another to the end.
//!
//! On standard output each figure has a line: its number, theirs, ours, how far ours is from theirs,
//! and whether that is within one percent. Those of the formulas come first.

mod asked;
mod formulas;
mod whole;

pub use asked::{Asked, Question, What};
use reference::sheet;

/// A figure by its number, as it is printed in the unit of 01, and as it comes out here.
#[derive(Clone, Copy, Debug, PartialEq, Eq)]
pub struct Figure {
    pub number: u32,
    pub theirs: u32,
    pub ours: u128,
}

impl Figure {
    /// In hundredths of a percent of theirs, rounded up; where theirs is 0, of 1.
    pub fn off(self) -> u128 {
        let theirs = u128::from(self.theirs);
        (10000 * theirs.abs_diff(self.ours)).div_ceil(theirs.max(1))
    }

    /// "within one percent of the printed figures"
    pub fn is_within(self) -> bool {
        let theirs = u128::from(self.theirs);
        100 * theirs.abs_diff(self.ours) <= theirs
    }

    fn line(self) -> String {
        let word = if self.is_within() { "within" } else { "beyond" };
        sheet::line(&[
            self.number.to_string(),
            self.theirs.to_string(),
            self.ours.to_string(),
            self.off().to_string(),
            word.to_string(),
        ])
    }
}

/// In the order of the program.
pub fn all() -> Vec<Figure> {
    let mut figures = formulas::figures();
    figures.extend(whole::floors().iter().flat_map(Asked::figures));
    figures
}

pub fn stdin() -> Vec<u8> {
    whole::floors().iter().flat_map(Asked::bytes).collect()
}

pub fn stdout() -> String {
    all().into_iter().map(Figure::line).collect()
}
