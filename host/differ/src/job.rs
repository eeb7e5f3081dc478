//! What the cases of one run of comparisons have in common.

use crate::lent::Room;
use cases::draw::Draw;
use gandhrumil::{Answer, Query};

/// On a floor, a table and a governing slice.
pub type Open = fn(&[u8], &mut [u32], &mut [u32]) -> Answer;
pub type Change = fn(&mut [u8], &mut [u32], &mut [u32], &[u8]) -> Answer;
/// On a floor and a slice for its places.
pub type Places = fn(&[u8], &mut [u32]) -> Answer;
/// On a floor and a buffer for its schedule.
pub type Schedule = fn(&[u8], &mut [u8]) -> Answer;

/// The seven calls, which a test may put wrong ones in place of.
#[derive(Clone, Copy)]
pub struct Calls {
    pub open: Open,
    pub change: Change,
    pub panel: fn(&[u8], u64, u64) -> Answer,
    pub clear: fn(&[u8]) -> Answer,
    pub places: Places,
    pub steel: fn(Query) -> Answer,
    pub schedule: Schedule,
}

pub const LIBRARY: Calls = Calls {
    open: gandhrumil::open,
    change: gandhrumil::change,
    panel: gandhrumil::panel,
    clear: gandhrumil::clear,
    places: gandhrumil::places,
    steel: gandhrumil::steel,
    schedule: gandhrumil::schedule,
};

#[derive(Clone, Copy)]
pub struct Job {
    pub seed: u64,
    pub room: Room,
    pub calls: Calls,
}

impl Job {
    pub fn of_the_library(seed: u64) -> Job {
        Job {
            seed,
            room: Room::Guarded,
            calls: LIBRARY,
        }
    }

    /// The sequence of one case.
    pub fn draw(&self, part: &str, case: u64) -> Draw {
        let words = part.bytes().map(u64::from).chain([case]);
        let mixed = words.fold(self.seed, |mixed, word| {
            Draw::starting_at(mixed ^ word).bits()
        });
        Draw::starting_at(mixed)
    }
}
