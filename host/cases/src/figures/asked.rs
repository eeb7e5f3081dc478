//! A floor and what is asked of it.

use super::Figure;
use floor::Floor;
use reference::floor_file::sizes;
use reference::span::NUMBERS;
use reference::table::{numbers, x_record, y_record};
use reference::verdict::judge;

/// "Mo, then low end, between, high end", each of five numbers.
#[derive(Clone, Copy, Debug, PartialEq, Eq)]
pub enum Place {
    Low,
    Between,
    High,
}

/// "each as total, column, middle, beam, slab"
#[derive(Clone, Copy, Debug, PartialEq, Eq)]
pub enum Share {
    Total,
    Column,
    Middle,
    Beam,
    Slab,
}

/// A span of a frame: its line and its number along it.
#[derive(Clone, Copy, Debug, PartialEq, Eq)]
pub enum Along {
    X { line: u128, span: u128 },
    Y { line: u128, span: u128 },
}

#[derive(Clone, Copy, Debug, PartialEq, Eq)]
pub enum What {
    Refusal,
    Verdict,
    StaticMoment(Along),
    Moment(Along, Place, Share),
}

#[derive(Clone, Copy, Debug, PartialEq, Eq)]
pub struct Question {
    pub number: u32,
    pub what: What,
    pub theirs: u32,
}

pub fn question(number: u32, what: What, theirs: u32) -> Question {
    Question {
        number,
        what,
        theirs,
    }
}

/// The order in which the documents print what a section's moment is divided into.
const PRINTED: [Share; 5] = [
    Share::Total,
    Share::Column,
    Share::Beam,
    Share::Slab,
    Share::Middle,
];

/// A number of a section. The documents print kN·m, here they are N·m, and 01 has N·cm.
pub fn moment(number: u32, along: Along, place: Place, share: Share, theirs: u32) -> Question {
    question(number, What::Moment(along, place, share), 100 * theirs)
}

/// The five numbers of a section, figures from `first` on.
pub fn section(first: u32, along: Along, place: Place, theirs: [u32; 5]) -> Vec<Question> {
    let printed = (first..).zip(PRINTED).zip(theirs);
    let asked = |((number, share), theirs)| moment(number, along, place, share, theirs);
    printed.map(asked).collect()
}

pub struct Asked {
    pub floor: Floor,
    pub questions: Vec<Question>,
}

impl Asked {
    fn record(&self, along: Along) -> usize {
        let sizes = sizes(&self.floor.bytes());
        let record = match along {
            Along::X { line, span } => x_record(sizes, line, span),
            Along::Y { line, span } => y_record(sizes, line, span),
        };
        record as usize
    }

    /// Where a number stands in the table.
    fn place(&self, what: What) -> Option<usize> {
        match what {
            What::Refusal | What::Verdict => None,
            What::StaticMoment(along) => Some(NUMBERS * self.record(along)),
            What::Moment(along, place, share) => {
                Some(NUMBERS * self.record(along) + 1 + 5 * place as usize + share as usize)
            }
        }
    }

    fn answer(&self, what: What) -> u128 {
        let floor = self.floor.bytes();
        match self.place(what) {
            Some(place) => numbers(&floor)[place].into(),
            None if what == What::Refusal => judge(&floor).0,
            None => judge(&floor).1,
        }
    }

    pub fn figures(&self) -> Vec<Figure> {
        let figure = |asked: &Question| Figure {
            number: asked.number,
            theirs: asked.theirs,
            ours: self.answer(asked.what),
        };
        self.questions.iter().map(figure).collect()
    }

    /// How the program is asked: 0 the refusal, 1 the verdict, from 2 on the numbers of the table.
    fn code(&self, what: What) -> u32 {
        match self.place(what) {
            Some(place) => place as u32 + 2,
            None if what == What::Refusal => 0,
            None => 1,
        }
    }

    pub fn bytes(&self) -> Vec<u8> {
        let floor = self.floor.bytes();
        let head = [floor.len() as u32, self.questions.len() as u32];
        let words = |asked: &Question| [asked.number, self.code(asked.what), asked.theirs];
        let mut bytes: Vec<u8> = head.into_iter().flat_map(u32::to_le_bytes).collect();
        bytes.extend(floor);
        let words = self.questions.iter().flat_map(words);
        bytes.extend(words.flat_map(u32::to_le_bytes));
        bytes
    }
}
