//! The limits of the method: of each how its places are said.

use super::folds::{self, Fold};
use super::{places, sentences};
use crate::judge::{Accepted, Place};

/// Up to so many places of a limit are said one by one.
const MOST_APART: usize = 4;

pub struct Limit {
    pub number: u32,
    fold: fn(&[Place]) -> Vec<Fold>,
    words: fn(&Accepted, &Fold) -> String,
}

/// 01, "The verdict": "A sum of what is broken".
static LIMITS: [Limit; 7] = [
    Limit {
        number: 1,
        fold: folds::apart,
        words: places::direction,
    },
    Limit {
        number: 2,
        fold: folds::rows,
        words: places::slender_panels,
    },
    Limit {
        number: 4,
        fold: folds::runs,
        words: places::neighbours,
    },
    Limit {
        number: 8,
        fold: folds::rows,
        words: places::columns,
    },
    Limit {
        number: 16,
        fold: folds::apart,
        words: places::loads,
    },
    Limit {
        number: 32,
        fold: folds::rows,
        words: places::unequal_panels,
    },
    Limit {
        number: 64,
        fold: folds::rows,
        words: places::thin_panels,
    },
];

/// Those that a verdict is the sum of.
pub fn broken(verdict: u32) -> impl Iterator<Item = &'static Limit> {
    let limits = LIMITS.iter();
    limits.filter(move |limit| verdict & limit.number != 0)
}

impl Limit {
    pub fn sentence(&self) -> &'static str {
        sentences::limit(self.number)
    }

    /// The number and the sentence, as a line below a verdict.
    pub fn line(&self) -> String {
        format!("  {:>2}  {}\n", self.number, self.sentence())
    }

    /// The places where the floor breaks it, in words: more than a few are folded, unless all are asked for.
    pub fn places(&self, accepted: &Accepted, all: bool) -> Vec<String> {
        let mut places = accepted.places.clone();
        places.retain(|place| place.limit == self.number);
        let folds = if all || places.len() <= MOST_APART {
            folds::apart(&places)
        } else {
            (self.fold)(&places)
        };
        let words = folds.iter().map(|fold| (self.words)(accepted, fold));
        words.collect()
    }
}
