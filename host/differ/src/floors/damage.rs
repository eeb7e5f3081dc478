//! What befalls a floor's bytes.

use cases::draw::Draw;
use cases::floors::long::garbage;
use cases::refusals::{tried_values, LISTED};
use cases::runs::changes::any_index;
use floor::{last_index, value, with, Field, Floor, RECORD_BYTES};

type Damage = fn(&mut Draw, &[u8]) -> Vec<u8>;

const WAYS: [(&str, Damage); 11] = [
    ("bytes flipped", flipped),
    ("cut short", cut_short),
    ("cut short by records", cut_by_records),
    ("made longer", made_longer),
    ("records swapped", swapped),
    ("a value at or past its range", value_at_its_range),
    ("a value at or past its range", value_at_its_range),
    ("a record overwritten", overwritten),
    ("columns too wide", wide_columns),
    ("a beam put or taken", beam_put_or_taken),
    ("no floor at all", any_bytes),
];

/// The damage in words, and the bytes.
pub fn damaged(draw: &mut Draw, floor: &[u8]) -> (&'static str, Vec<u8>) {
    let (words, way) = draw.one_of(&WAYS);
    (words, way(draw, floor))
}

fn flipped(draw: &mut Draw, floor: &[u8]) -> Vec<u8> {
    let mut bytes = floor.to_vec();
    for _ in 0..draw.between(1, 3) {
        let place = draw.between(0, bytes.len() - 1);
        bytes[place] ^= draw.between(1, 255);
    }
    bytes
}

fn cut_short(draw: &mut Draw, floor: &[u8]) -> Vec<u8> {
    let length = draw.between(0, floor.len() - 1);
    floor[..length].to_vec()
}

fn cut_by_records(draw: &mut Draw, floor: &[u8]) -> Vec<u8> {
    let kept = draw.between(0, floor.len() / RECORD_BYTES - 1);
    floor[..RECORD_BYTES * kept].to_vec()
}

/// By any bytes, or by records that stand in it already.
fn made_longer(draw: &mut Draw, floor: &[u8]) -> Vec<u8> {
    let more = draw.between(1, 40);
    let tail = match draw.percent(50) {
        true => garbage(draw, more),
        false => floor[floor.len() - RECORD_BYTES..].repeat(more),
    };
    [floor, &tail].concat()
}

fn any_place(draw: &mut Draw, floor: &[u8]) -> usize {
    RECORD_BYTES * draw.between(0, floor.len() / RECORD_BYTES - 1)
}

/// Records that differ in kind or index, as two of a floor always do; often neighbours.
fn swapped(draw: &mut Draw, floor: &[u8]) -> Vec<u8> {
    let one = any_place(draw, floor);
    let next = (one + RECORD_BYTES) % floor.len();
    let others = [next, any_place(draw, floor)];
    let other = draw.one_of(&others);
    let mut bytes = floor.to_vec();
    bytes[one..one + RECORD_BYTES].copy_from_slice(&floor[other..other + RECORD_BYTES]);
    bytes[other..other + RECORD_BYTES].copy_from_slice(&floor[one..one + RECORD_BYTES]);
    bytes
}

/// At or past an end of its range, which the floor then takes or refuses.
fn value_at_its_range(draw: &mut Draw, floor: &[u8]) -> Vec<u8> {
    let (kind, field, _) = draw.one_of(&LISTED);
    let index = any_index(draw, floor, kind);
    let value = draw.one_of(tried_values(kind, field));
    with(floor, kind, index, field, value)
}

fn overwritten(draw: &mut Draw, floor: &[u8]) -> Vec<u8> {
    let place = any_place(draw, floor);
    let mut bytes = floor.to_vec();
    bytes[place..place + RECORD_BYTES].copy_from_slice(&garbage(draw, RECORD_BYTES));
    bytes
}

/// 6: "2cx exceeds an x span, or 2cy a y span": by 10 or 20, or not yet. No column is above 1,500, so that where all
/// spans are longer one of them is made 2,980.
fn wide_columns(draw: &mut Draw, floor: &[u8]) -> Vec<u8> {
    let floor_of = Floor::of(floor).expect("a good floor");
    let choices = [
        (Field::A, 5, floor_of.x_spans),
        (Field::B, 6, floor_of.y_spans),
    ];
    let (field, kind, spans) = &choices[draw.between(0, 1)];
    let shortest = *spans.iter().min().expect("a bay");
    let half = (shortest / 20 * 10).min(1_490);
    let column = half + draw.one_of(&[0, 10]);
    let wide = with(floor, 4, 0, *field, column);
    match shortest {
        ..=2_980 => wide,
        _ => {
            let index = any_index(draw, floor, *kind);
            with(&wide, *kind, index, Field::A, 2_980)
        }
    }
}

/// 7: "layout not allowed, or a line has a beam whose depth is not above t"
fn beam_put_or_taken(draw: &mut Draw, floor: &[u8]) -> Vec<u8> {
    let kind = draw.one_of(&[7, 8]);
    let index = draw.between(0, last_index(floor, kind));
    let t = value(floor, 1, 0, Field::C);
    let (width, depth) = match value(floor, kind, index, Field::A) {
        0 => (300, t + 1),
        width => draw.one_of(&[(0, 0), (width, t), (width, t + 1)]),
    };
    let wide = with(floor, kind, index, Field::A, width);
    with(&wide, kind, index, Field::B, depth)
}

fn any_bytes(draw: &mut Draw, _: &[u8]) -> Vec<u8> {
    let length = draw.between(0, 5_000);
    let whole_records = length / RECORD_BYTES * RECORD_BYTES;
    let length = draw.one_of(&[length, whole_records]);
    garbage(draw, length)
}
