//! Panel queries and steel queries.

use super::{Operation, Work};
use crate::floors::{with_beams, without_beams};
use crate::product::{Answer, Query};
use crate::size::Size;
use floor::Floor;

/// The panel of an x bay and a y bay.
fn panel(name: &'static str, floor: &Floor, (x, y): (usize, usize)) -> Operation {
    let floor = floor.bytes();
    let (refused, least) = reference::panel::panel(&floor, x as u128, y as u128);
    Operation {
        name,
        floor,
        work: Work::Panel(x as u64, y as u64),
        answer: (refused as u32, least as u32),
        writes: 0,
    }
}

pub fn panels(size: Size) -> Vec<Operation> {
    let (bare, beams) = (without_beams(size), with_beams(size));
    let last = size.0 - 1;
    vec![
        panel("panel, first, beams everywhere", &beams, (0, 0)),
        panel("panel, last, beams everywhere", &beams, (last, last)),
        panel("panel, first, no beams", &bare, (0, 0)),
        // 10 comes right after 1 to 7, and nothing is worked out for a panel that is not there.
        panel("checks 1 to 7 (panel, refused 10)", &beams, (size.0, 0)),
    ]
}

fn query(name: &'static str, query: Query, answer: Answer) -> Operation {
    Operation {
        name,
        floor: Vec::new(),
        work: Work::Steel(query),
        answer,
        writes: 0,
    }
}

/// The queries of 01's figures: a query has no floor and no size.
pub fn steel() -> Vec<Operation> {
    let with_moment = |m: u64| [m, 1_000, 150, 124, 30, 420];
    vec![
        query("steel, M 2,195,000", with_moment(2_195_000), (0, 484)),
        query("steel, M 0", with_moment(0), (0, 270)),
        query("steel, refused 12", with_moment(20_000_000), (12, 0)),
    ]
}
