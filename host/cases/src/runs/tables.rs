//! What a lent table and a governing slice hold before their run.

use crate::draw::Draw;
use reference::floor_file::sizes;
use reference::{governing, table};

#[derive(Clone, Copy, Debug, PartialEq, Eq)]
pub enum Held {
    Right,
    SomeWrong,
    AllWrong,
    Zeros,
}

pub const HELD: [Held; 4] = [Held::Right, Held::SomeWrong, Held::AllWrong, Held::Zeros];

/// A table for a floor that is not refused, and a tail past it.
pub fn table(draw: &mut Draw, floor: &[u8], held: Held, tail: usize) -> Vec<u32> {
    kept(draw, table::numbers(floor), held, tail)
}

/// A governing slice for a floor that is not refused, and a tail past it. A right one agrees with the
/// table, right or wrong.
pub fn governing(
    draw: &mut Draw,
    floor: &[u8],
    table: &[u32],
    held: Held,
    tail: usize,
) -> Vec<u32> {
    let right = governing::numbers(sizes(floor), table);
    kept(draw, right, held, tail)
}

fn kept(draw: &mut Draw, right: Vec<u32>, held: Held, tail: usize) -> Vec<u32> {
    let mut number = |right: u32| match held {
        Held::Right => right,
        Held::SomeWrong if draw.percent(80) => right,
        Held::SomeWrong | Held::AllWrong => draw.number(),
        Held::Zeros => 0,
    };
    let mut kept: Vec<u32> = right.into_iter().map(&mut number).collect();
    kept.extend(any_numbers(draw, tail));
    kept
}

pub fn any_numbers(draw: &mut Draw, count: usize) -> Vec<u32> {
    (0..count).map(|_| draw.number()).collect()
}
