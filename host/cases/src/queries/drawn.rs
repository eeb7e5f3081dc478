//! Queries drawn whole.

use super::Described;
use crate::draw::Draw;
use reference::steel::Query;

/// A name, how many are drawn, and how.
type Sort = (&'static str, usize, fn(&mut Draw) -> Query);

const SORTS: [Sort; 5] = [
    ("real", 900, real),
    ("any", 500, any),
    ("narrow", 200, narrow),
    ("shallow", 200, shallow),
    ("stray", 120, stray),
];

pub fn queries() -> Vec<Described> {
    let mut draw = Draw::starting_at(32);
    let mut queries = Vec::new();
    for (name, count, query) in SORTS {
        for number in 1..=count {
            let words = format!("{name} {number}");
            queries.push(Described::new(words, query(&mut draw)));
        }
    }
    queries
}

fn fy(draw: &mut Draw) -> u128 {
    draw.one_of(&[280, 420, 520])
}

/// One without a moment, as wide as column and middle strips are, its steel near the face.
pub fn real_strip(draw: &mut Draw) -> Query {
    let t = draw.between(100, 350);
    let given = draw.between((t - 60).max(50), t - 25);
    Query {
        m: 0,
        b: draw.between(500, 6_000),
        t,
        d: draw.one_of(&[0, given]),
        fc: draw.between(20, 60),
        fy: fy(draw),
    }
}

/// One without a moment, from everything in range.
pub fn any_strip(draw: &mut Draw) -> Query {
    let t = draw.between(90, 500);
    let given = draw.between(50, t - 25);
    Query {
        m: 0,
        b: draw.between(1, 12_000),
        t,
        d: draw.one_of(&[0, given, given]),
        fc: draw.between(20, 60),
        fy: fy(draw),
    }
}

/// Small moments are as frequent as large ones.
fn moment(draw: &mut Draw, most: u128) -> u128 {
    let part = draw.one_of(&[1, 2, 5, 20, 100]);
    draw.between(0, most / part)
}

pub fn real(draw: &mut Draw) -> Query {
    Query {
        m: moment(draw, 50_000_000),
        ..real_strip(draw)
    }
}

pub fn any(draw: &mut Draw) -> Query {
    Query {
        m: moment(draw, 2_000_000_000),
        ..any_strip(draw)
    }
}

/// So narrow that each mm² tells.
pub fn narrow(draw: &mut Draw) -> Query {
    Query {
        m: moment(draw, 200_000),
        b: draw.between(1, 40),
        ..any_strip(draw)
    }
}

/// So thick for its depth that the minimum and the strain limit are not far apart.
pub fn shallow(draw: &mut Draw) -> Query {
    Query {
        m: moment(draw, 100_000),
        b: draw.between(1, 3_000),
        t: draw.between(400, 500),
        d: draw.between(50, 60),
        fc: draw.between(20, 32),
        fy: fy(draw),
    }
}

/// One value or two drawn from all numbers of so many bits.
pub fn stray(draw: &mut Draw) -> Query {
    let mut numbers = real(draw).numbers();
    for _ in 0..draw.between(1, 2) {
        let place = draw.between(0, 5);
        let bits = draw.between(1, 64);
        numbers[place] = u128::from(draw.bits()) >> (64 - bits);
    }
    Query::of(numbers)
}
