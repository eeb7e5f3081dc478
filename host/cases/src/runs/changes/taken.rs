//! Changes that are taken: near what the floor holds, or far from it.

use super::{any_index, verdict_with, KINDS, TRIES};
use crate::draw::Draw;
use floor::{held, record, value, Field, NO_BEAM};
use reference::change::change;
use reference::panel::{x_spans, y_spans};
use reference::refusals::SUCCESS;
use reference::verdict::judge;

/// A change near what is held after which the verdict is what it was, both once `mending` is in the
/// floor too. A mending of no bytes is refused, and so alters nothing.
pub fn keeping_change(draw: &mut Draw, floor: &[u8], kinds: &[u16], mending: &[u8]) -> Vec<u8> {
    let (_, mended) = change(floor, mending);
    let (_, verdict) = judge(&mended);
    for _ in 0..TRIES {
        let kind = draw.one_of(kinds);
        let index = any_index(draw, floor, kind);
        let near = near(draw, floor, kind, index);
        let of_the_same_record = mending.get(..4) == near.get(..4);
        let taken = change(floor, &near).0 == SUCCESS;
        if taken && !of_the_same_record && verdict_with(&mended, &near) == Some(verdict) {
            return near;
        }
    }
    // Takes an offset away, which breaks nothing.
    record(9, any_index(draw, floor, 9), [0, 0, 0])
}

/// A change of one record of a clear floor that keeps it clear, if need be one that alters nothing.
pub fn clear_change_of(draw: &mut Draw, floor: &[u8], kind: u16, index: u16) -> Vec<u8> {
    for _ in 0..TRIES {
        let near = near(draw, floor, kind, index);
        if verdict_with(floor, &near) == Some(0) {
            return near;
        }
    }
    held(floor, kind, index)
}

/// A change that is taken and leaves the floor broken.
pub fn breaking_change(draw: &mut Draw, floor: &[u8]) -> Vec<u8> {
    for _ in 0..TRIES {
        let kind = draw.one_of(&KINDS);
        let far = far(draw, floor, kind);
        if verdict_with(floor, &far).is_some_and(|verdict| verdict != 0) {
            return far;
        }
    }
    too_much_live_load(draw)
}

pub fn near(draw: &mut Draw, floor: &[u8], kind: u16, index: u16) -> Vec<u8> {
    let values = match kind {
        3 => near_loads(draw),
        5 | 6 => near_span(draw, value(floor, kind, index, Field::A)),
        7 | 8 => near_beam(
            draw,
            value(floor, kind, index, Field::A),
            value(floor, kind, index, Field::B),
        ),
        _ => near_offset(draw, floor),
    };
    record(kind, index, values)
}

fn near_loads(draw: &mut Draw) -> [u32; 3] {
    let dead = draw.between(1_000, 30_000);
    [dead, draw.between(0, (2 * dead).min(50_000)), 0]
}

fn near_span(draw: &mut Draw, held: u32) -> [u32; 3] {
    let length = held * draw.between(88, 110) / 100;
    [20 * (length / 20).clamp(50, 600), 0, 0]
}

/// Where there is no beam none is put.
fn near_beam(draw: &mut Draw, width: u32, depth: u32) -> [u32; 3] {
    if (width, depth) == NO_BEAM {
        return [0, 0, 0];
    }
    let width = width * draw.between(80, 125) / 100;
    let depth = depth * draw.between(90, 112) / 100;
    [width.clamp(150, 1_000), depth.clamp(91, 1_500), 0]
}

fn near_offset(draw: &mut Draw, floor: &[u8]) -> [u32; 3] {
    let tenth = |spans: Vec<u128>| spans.into_iter().min().expect("a bay") as u32 / 10;
    let along_x = draw.between(0, tenth(x_spans(floor)));
    let along_y = draw.between(0, tenth(y_spans(floor)));
    [along_x, along_y, 0]
}

fn too_much_live_load(draw: &mut Draw) -> Vec<u8> {
    let dead = draw.between(1_000, 24_999);
    record(3, 0, [dead, draw.between(2 * dead + 1, 50_000), 0])
}

pub fn far(draw: &mut Draw, floor: &[u8], kind: u16) -> Vec<u8> {
    let index = any_index(draw, floor, kind);
    match kind {
        3 => too_much_live_load(draw),
        5 | 6 => record(kind, index, [20 * draw.between(50, 600), 0, 0]),
        7 | 8 => {
            let barely_a_beam = (150, value(floor, 1, 0, Field::C) + 1);
            let (width, depth) = draw.one_of(&[barely_a_beam, (1_000, 1_500)]);
            record(kind, index, [width, depth, 0])
        }
        _ => {
            let far = draw.between(1, 12_000);
            let values = draw.one_of(&[[far, 0, 0], [0, far, 0], [far, far, 0]]);
            record(kind, index, values)
        }
    }
}
