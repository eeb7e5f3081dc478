//! What the proved library says of a floor.

mod held;
mod moments;
mod order;
mod places;
mod schedule;

pub use held::Held;
pub use moments::{Moments, Section, SpanMoments};
pub use places::Place;
pub use schedule::{Bars, Schedule, RECORD_BYTES};

use floor::Floor;

pub struct Accepted {
    pub floor: Floor,
    pub verdict: u32,
    /// Of each y bay from the south, its panels' least thicknesses from the west.
    pub least: Vec<Vec<u32>>,
    /// Where it breaks its limits, in the library's order.
    pub places: Vec<Place>,
}

impl Accepted {
    /// Whether the library lists the panel for limit 64.
    pub fn is_thin(&self, i: usize, j: usize) -> bool {
        let listed = |place: &Place| (place.limit, place.i, place.j) == (64, i, j);
        self.places.iter().any(listed)
    }
}

pub enum Clear {
    Yes,
    No,
    Refused(u32),
}

pub fn clear(file: &[u8]) -> Clear {
    let answer = gandhrumil::clear(file);
    match (answer.refusal, answer.value) {
        (0, 1) => Clear::Yes,
        (0, _) => Clear::No,
        (refused, _) => Clear::Refused(refused),
    }
}

/// 1 to 7, or 0: "There is no table here, so only 1 to 7 are tried." (02, Four)
pub fn refusal(file: &[u8]) -> u32 {
    gandhrumil::clear(file).refusal
}

/// What it says of a floor that it accepts, or the number of its refusal. The moments are dropped unread.
pub fn judge(file: &[u8]) -> Result<Accepted, u32> {
    let held = Held::open(file)?;
    let floor = held.floor();
    Ok(Accepted {
        verdict: held.verdict(),
        least: least_thicknesses(file, &floor),
        places: places::places(file),
        floor,
    })
}

fn least_thicknesses(file: &[u8], floor: &Floor) -> Vec<Vec<u32>> {
    let panels = |y| {
        let bays = 0..floor.x_spans.len() as u64;
        bays.map(|x| gandhrumil::panel(file, x, y).value).collect()
    };
    (0..floor.y_spans.len() as u64).map(panels).collect()
}
