//! Which change comes next.

use cases::draw::Draw;
use cases::refusals::{tried_values, LISTED};
use cases::runs::changes::taken::{clear_change_of, far, near};
use cases::runs::changes::{any_index, refused, KINDS};
use floor::{held, with, Record, RECORD_BYTES};

/// Keeps a clear floor clear for the most part, and brings a broken one back step by step.
#[derive(Default)]
pub struct Walk {
    /// What puts the floor back to when it was last clear, to be taken from the end.
    back: Vec<Vec<u8>>,
}

impl Walk {
    /// A change drawn for a floor that is not refused.
    pub fn next(&self, draw: &mut Draw, floor: &[u8], verdict: u128) -> Vec<u8> {
        let kind = draw.one_of(&KINDS);
        let index = any_index(draw, floor, kind);
        match (draw.between(1, 100), self.back.last()) {
            (1..=55, Some(back)) => back.clone(),
            (1..=70, _) if verdict == 0 => clear_change_of(draw, floor, kind, index),
            (1..=70, _) => near(draw, floor, kind, index),
            (71..=76, _) => far(draw, floor, kind),
            (77..=82, _) => at_its_range(draw, floor),
            (83..=85, _) => flipped(draw, held(floor, kind, index)),
            _ => refused::change(draw, floor),
        }
    }

    /// The verdicts are those before and after the change.
    pub fn taken(&mut self, before: &[u8], change: &[u8], verdicts: (u128, u128)) {
        let Record { kind, index, .. } = Record::read(change);
        match verdicts {
            (_, 0) => self.back.clear(),
            _ if self.back.last().is_some_and(|back| back == change) => {
                self.back.pop();
            }
            (verdict, _) if verdict == 0 || !self.back.is_empty() => {
                self.back.push(held(before, kind, index));
            }
            // A floor that never was clear.
            _ => (),
        }
    }
}

/// One value of a record at or past an end of its range.
fn at_its_range(draw: &mut Draw, floor: &[u8]) -> Vec<u8> {
    let changeable: Vec<_> = LISTED.iter().filter(|row| KINDS.contains(&row.0)).collect();
    let &(kind, field, _) = draw.one_of(&changeable);
    let index = any_index(draw, floor, kind);
    let value = draw.one_of(tried_values(kind, field));
    with(&held(floor, kind, index), kind, index, field, value)
}

fn flipped(draw: &mut Draw, mut change: Vec<u8>) -> Vec<u8> {
    let place = draw.between(0, RECORD_BYTES - 1);
    change[place] ^= draw.between(1, 255);
    change
}
