//! Drawn strips at the very moment where one more mm² is asked for.

use super::drawn::{any_strip, real_strip};
use super::strength::{greatest_area, greatest_moment, least_area};
use super::Described;
use crate::draw::Draw;
use reference::steel::Query;

pub fn queries() -> Vec<Described> {
    let mut draw = Draw::starting_at(31);
    let mut queries = Vec::new();
    for number in 1..=250 {
        let (strip, area) = strip_and_area(&mut draw);
        let m = greatest_moment(strip, area);
        for (words, m) in [("carried", m), ("not carried", m + 1)] {
            queries.push(Described::new(
                format!("step {number}, M {m}, {words} by {area}"),
                Query { m, ..strip },
            ));
        }
    }
    queries
}

/// Draws until some area fits and what it carries is in range.
pub fn strip_and_area(draw: &mut Draw) -> (Query, u128) {
    loop {
        let strip = match draw.percent(60) {
            true => real_strip(draw),
            false => any_strip(draw),
        };
        let (least, greatest) = (least_area(strip), greatest_area(strip));
        if least <= greatest {
            let area = draw.between(least, greatest);
            if greatest_moment(strip, area) < 2_000_000_000 {
                return (strip, area);
            }
        }
    }
}
