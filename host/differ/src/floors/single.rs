//! Drawn floors that are clear but for one place.

use super::drawn::{bays, of_bays};
use super::edges::{self, longest, without_offsets, Way};
use super::{beams, weak};
use cases::draw::Draw;
use cases::floors::LAYOUTS;
use cases::places::{broken, Broken};
use floor::Floor;
use reference::layout::Layout;
use reference::refusals::{refusal, SUCCESS};

/// In which layout, if not in any, and how a floor is brought past a limit, in one place or in several.
const WAYS: [(Option<Layout>, Way); 6] = [
    (None, long_panel),
    (None, edges::neighbours),
    (None, edges::offset),
    (Some(Layout::Everywhere), beams::stiffness),
    (Some(Layout::Everywhere), edges::thickness),
    (None, weak_edge),
];

/// The one place, and the floor. Each way is taken equally often.
pub fn single(draw: &mut Draw) -> (Broken, Floor) {
    let (layout, way) = draw.one_of(&WAYS);
    loop {
        let floor = floor_of(draw, layout);
        let Some((_, past)) = way(draw, &floor) else {
            continue;
        };
        let past = match draw.percent(50) {
            true => past.transposed(),
            false => past,
        };
        if let Some(one) = one_place(&past.bytes()) {
            return (one, past);
        }
    }
}

fn floor_of(draw: &mut Draw, layout: Option<Layout>) -> Floor {
    let (any, _) = draw.one_of(&LAYOUTS);
    let bays = bays(draw);
    of_bays(draw, bays, layout.unwrap_or(any))
}

fn one_place(floor: &[u8]) -> Option<Broken> {
    if refusal(floor) != SUCCESS {
        return None;
    }
    match broken(floor)[..] {
        [one] => Some(one),
        _ => None,
    }
}

/// 2: "in a panel, longer span > 2·shorter". The others of its x bay are wider, those of its y bay shorter.
fn long_panel(draw: &mut Draw, floor: &Floor) -> Option<(Floor, Floor)> {
    let shorter = (longest(&floor.x_spans) / 40 * 20).clamp(1_000, 5_980);
    let i = draw.between(0, floor.x_spans.len() - 1);
    let j = draw.between(0, floor.y_spans.len() - 1);
    let mut at = Floor {
        x_spans: vec![2 * shorter; floor.x_spans.len()],
        y_spans: vec![shorter + 20; floor.y_spans.len()],
        cy: floor.cy.min(shorter / 20 * 10),
        ..without_offsets(floor)
    };
    at.y_spans[j] = shorter;
    edges::both(at, |past| past.x_spans[i] += 20)
}

/// 64 by an outer line that is just too weak, of another floor.
fn weak_edge(draw: &mut Draw, _: &Floor) -> Option<(Floor, Floor)> {
    Some(weak::edge(draw))
}
