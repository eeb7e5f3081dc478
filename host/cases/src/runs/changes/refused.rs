//! Changes that are refused, for their form or for what the changed floor would be.

use super::{any_index, KINDS};
use crate::draw::Draw;
use floor::{held, last_index, record, value, with, Field, NO_BEAM};

type Refused = fn(&mut Draw, &[u8]) -> Vec<u8>;

const WAYS: [Refused; 8] = [
    wrong_length,
    wrong_kind,
    index_too_high,
    unlisted_field,
    out_of_range,
    out_of_range,
    span_too_short,
    wrong_beam,
];

pub fn change(draw: &mut Draw, floor: &[u8]) -> Vec<u8> {
    let way = draw.one_of(&WAYS);
    way(draw, floor)
}

/// What the floor holds: a change that would be taken.
fn good(draw: &mut Draw, floor: &[u8]) -> (u16, u16, Vec<u8>) {
    let kind = draw.one_of(&KINDS);
    let index = any_index(draw, floor, kind);
    (kind, index, held(floor, kind, index))
}

/// 9: "a change is not 16 bytes"
fn wrong_length(draw: &mut Draw, floor: &[u8]) -> Vec<u8> {
    let (_, _, good) = good(draw, floor);
    let mut bytes = good.repeat(3);
    let length = draw.between(0, 40);
    bytes.truncate(if length == 16 { 15 } else { length });
    bytes
}

/// 9: "not of kind 3 or 5..9"
fn wrong_kind(draw: &mut Draw, floor: &[u8]) -> Vec<u8> {
    let wrong = draw.one_of(&[0, 1, 2, 4, 10, 256, 259, 261, 65_535]);
    match wrong {
        1 | 2 | 4 => held(floor, wrong, 0),
        _ => record(wrong, 0, [6_000, 0, 0]),
    }
}

/// 9: "has an index the floor lacks"
fn index_too_high(draw: &mut Draw, floor: &[u8]) -> Vec<u8> {
    let (kind, index, good) = good(draw, floor);
    let high = [u32::from(last_index(floor, kind)) + 1, 256, 65_535];
    with(&good, kind, index, Field::Index, draw.one_of(&high))
}

/// 9: "or an unlisted field not zero"
fn unlisted_field(draw: &mut Draw, floor: &[u8]) -> Vec<u8> {
    let (kind, index, good) = good(draw, floor);
    let stray = draw.one_of(&[1, 1 << 24, 1 << 31]);
    let field = match kind {
        5 | 6 => draw.one_of(&[Field::B, Field::C]),
        _ => Field::C,
    };
    with(&good, kind, index, field, stray)
}

/// 5: "some value is out of range, or one beam size alone is 0"
fn out_of_range(draw: &mut Draw, floor: &[u8]) -> Vec<u8> {
    let (kind, index, good) = good(draw, floor);
    let (field, value) = match kind {
        3 => draw.one_of(&[
            (Field::A, 999),
            (Field::A, 30_001),
            (Field::B, 50_001),
            (Field::B, 1 << 31),
        ]),
        5 | 6 => draw.one_of(&[
            (Field::A, 0),
            (Field::A, 980),
            (Field::A, 5_010),
            (Field::A, 12_020),
        ]),
        7 | 8 => draw.one_of(&[
            (Field::A, 149),
            (Field::A, 1_001),
            (Field::B, 90),
            (Field::B, 1_501),
        ]),
        _ => draw.one_of(&[(Field::A, 12_001), (Field::B, 12_001), (Field::B, 1 << 16)]),
    };
    with(&good, kind, index, field, value)
}

/// 6: "2cx exceeds an x span, or 2cy a y span"; 5 where the columns are too small for that.
fn span_too_short(draw: &mut Draw, floor: &[u8]) -> Vec<u8> {
    let (kind, column) = draw.one_of(&[(5, Field::A), (6, Field::B)]);
    let too_short = 2 * value(floor, 4, 0, column) - 10;
    record(
        kind,
        any_index(draw, floor, kind),
        [too_short / 20 * 20, 0, 0],
    )
}

/// 7: "layout not allowed, or a line has a beam whose depth is not above t"
fn wrong_beam(draw: &mut Draw, floor: &[u8]) -> Vec<u8> {
    let kind = draw.one_of(&[7, 8]);
    let index = any_index(draw, floor, kind);
    let (width, depth) = (
        value(floor, kind, index, Field::A),
        value(floor, kind, index, Field::B),
    );
    let t = value(floor, 1, 0, Field::C);
    let values = if (width, depth) == NO_BEAM {
        [300, draw.one_of(&[600, t.max(91)]), 0]
    } else {
        draw.one_of(&[[0, 0, 0], [width, t.max(91), 0]])
    };
    record(kind, index, values)
}
