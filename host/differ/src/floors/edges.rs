//! A drawn floor at the edge of one limit of the method, and just past it: "equality always passes".

use super::beams;
use cases::draw::Draw;
use cases::floors::drawn::no_thicker_than_asked;
use floor::Floor;

/// The floor at the edge and past it, `None` where the floor cannot be brought there.
pub type Way = fn(&mut Draw, &Floor) -> Option<(Floor, Floor)>;

const WAYS: [(&str, Way); 6] = [
    ("panel length", panel_length),
    ("neighbours", neighbours),
    ("offset", offset),
    ("live load", live_load),
    ("stiffness", beams::stiffness),
    ("thickness", thickness),
];

/// Along x or along y.
pub fn edge(draw: &mut Draw, floor: &Floor) -> (&'static str, Floor, Floor) {
    let across = draw.percent(50);
    let turned = |floor: &Floor| match across {
        true => floor.transposed(),
        false => floor.clone(),
    };
    let along = turned(floor);
    loop {
        let (words, way) = draw.one_of(&WAYS);
        if let Some((at, past)) = way(draw, &along) {
            return (words, turned(&at), turned(&past));
        }
    }
}

/// The floor and another one that `alter` makes of it.
pub fn both(at: Floor, alter: impl Fn(&mut Floor)) -> Option<(Floor, Floor)> {
    let mut past = at.clone();
    alter(&mut past);
    Some((at, past))
}

pub fn longest(spans: &[u32]) -> u32 {
    *spans.iter().max().expect("a bay")
}

pub fn without_offsets(floor: &Floor) -> Floor {
    Floor {
        offsets: vec![(0, 0); floor.offsets.len()],
        ..floor.clone()
    }
}

/// 2: "in a panel, longer span > 2·shorter". No span is longer than the longest was, so that the slab stays
/// thick enough.
fn panel_length(_: &mut Draw, floor: &Floor) -> Option<(Floor, Floor)> {
    let shorter = longest(&floor.x_spans) / 40 * 20;
    if shorter < 1_000 {
        return None;
    }
    let at = Floor {
        x_spans: vec![2 * shorter; floor.x_spans.len()],
        y_spans: vec![shorter; floor.y_spans.len()],
        cy: floor.cy.min(shorter / 20 * 10),
        ..without_offsets(floor)
    };
    both(at, |past| past.x_spans[0] += 20)
}

/// 4: "for neighbouring spans in a direction, 3(longer − shorter) > longer"
pub fn neighbours(draw: &mut Draw, floor: &Floor) -> Option<(Floor, Floor)> {
    let longer = longest(&floor.x_spans);
    let shorter = (2 * longer).div_ceil(60) * 20;
    let bays = floor.x_spans.len();
    if bays < 2 || shorter < 1_020 {
        return None;
    }
    let of_the_longer = draw.between(1, bays - 1);
    let mut at = without_offsets(floor);
    at.x_spans = vec![longer; bays];
    at.x_spans[of_the_longer..].fill(shorter);
    both(at, |past| past.x_spans[of_the_longer] -= 20)
}

/// 8: "ten times an offset exceeds a span adjoining that column in its direction". Of any column, and of the last one
/// often.
pub fn offset(draw: &mut Draw, floor: &Floor) -> Option<(Floor, Floor)> {
    let bays = floor.x_spans.len();
    let last = floor.offsets.len() - 1;
    let any = draw.between(0, last);
    let column = draw.one_of(&[any, any, any, last]);
    let line = column % (bays + 1);
    let adjoining = &floor.x_spans[line.saturating_sub(1)..bays.min(line + 1)];
    let shorter = adjoining.iter().min().expect("a span");
    let mut at = floor.clone();
    at.offsets[column].0 = shorter / 10;
    both(at, |past| past.offsets[column].0 += 1)
}

/// 16: "L > 2D."
fn live_load(draw: &mut Draw, floor: &Floor) -> Option<(Floor, Floor)> {
    let dead = draw.between(1_000, 24_999);
    let at = Floor {
        dead,
        live: 2 * dead,
        ..floor.clone()
    };
    both(at, |past| past.live += 1)
}

/// 64: "t below some panel's least thickness"
pub fn thickness(_: &mut Draw, floor: &Floor) -> Option<(Floor, Floor)> {
    let at = no_thicker_than_asked(floor.clone());
    match at.t {
        ..=90 => None,
        _ => both(at, |past| past.t -= 1),
    }
}
