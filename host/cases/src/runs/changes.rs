//! Changes drawn for a floor: ones that keep it clear, ones that break it, ones that are refused.

pub mod refused;
pub mod taken;

use crate::draw::Draw;
use floor::{held, last_index, Record};
use reference::change;
use reference::refusals::SUCCESS;
use reference::verdict::judge;

/// "kind 3 or 5..9"
pub const KINDS: [u16; 6] = [3, 5, 6, 7, 8, 9];

/// How often each is drawn until another one is taken in its place.
const TRIES: usize = 12;

pub fn any_index(draw: &mut Draw, floor: &[u8], kind: u16) -> u16 {
    draw.between(0, last_index(floor, kind))
}

/// The verdict of the floor with the change in it, `None` where the change is refused.
fn verdict_with(floor: &[u8], change: &[u8]) -> Option<u128> {
    let changed = change::judge(floor, change).ok()?;
    let (_, verdict) = judge(&changed);
    Some(verdict)
}

/// A floor that is not refused, as the changes drawn so far leave it.
pub struct Changing {
    floor: Vec<u8>,
    /// The kinds of those that are taken.
    kinds: &'static [u16],
    /// Whether some break a limit, and others mend it.
    breaks: bool,
    /// Puts back what a change has broken.
    mending: Option<Vec<u8>>,
}

impl Changing {
    pub fn of(floor: &[u8]) -> Changing {
        Changing {
            floor: floor.to_vec(),
            kinds: &KINDS,
            breaks: true,
            mending: None,
        }
    }

    /// Never such that the whole table is written: a clear floor stays so, with the loads it has.
    pub fn quietly(floor: &[u8]) -> Changing {
        Changing {
            kinds: &KINDS[1..],
            breaks: false,
            ..Changing::of(floor)
        }
    }

    fn take(&mut self, change: &[u8]) {
        let (refused, floor) = change::change(&self.floor, change);
        assert_eq!(refused, SUCCESS, "{change:?}");
        self.floor = floor;
    }

    /// Of a hundred changes of a clear floor 74 keep it so, 8 break it and 18 are refused. Of a broken
    /// one 45 mend it, 35 do not and 20 are refused.
    pub fn next(&mut self, draw: &mut Draw) -> Vec<u8> {
        let part = draw.between(1, 100);
        match self.mending.clone() {
            None if part <= 74 => self.keep(draw, &[]),
            None if part <= 82 && self.breaks => self.break_a_limit(draw),
            Some(mending) if part <= 45 => self.mend(mending),
            Some(mending) if part <= 80 => self.keep(draw, &mending),
            _ => refused::change(draw, &self.floor),
        }
    }

    /// Keeps a clear floor clear, and a broken one such that `mending` clears it.
    fn keep(&mut self, draw: &mut Draw, mending: &[u8]) -> Vec<u8> {
        let change = taken::keeping_change(draw, &self.floor, self.kinds, mending);
        self.take(&change);
        change
    }

    fn break_a_limit(&mut self, draw: &mut Draw) -> Vec<u8> {
        let change = taken::breaking_change(draw, &self.floor);
        let Record { kind, index, .. } = Record::read(&change);
        self.mending = Some(held(&self.floor, kind, index));
        self.take(&change);
        change
    }

    fn mend(&mut self, mending: Vec<u8>) -> Vec<u8> {
        self.take(&mending);
        self.mending = None;
        mending
    }
}

/// Changes of the floor, each on what those before it leave.
pub fn changes(draw: &mut Draw, mut changing: Changing, count: usize) -> Vec<Vec<u8>> {
    (0..count).map(|_| changing.next(draw)).collect()
}

/// Changes of the floor, each on the floor as it is.
pub fn changes_never_stored(draw: &mut Draw, floor: &[u8], count: usize) -> Vec<Vec<u8>> {
    let changes = (0..count).map(|_| Changing::of(floor).next(draw));
    changes.collect()
}
