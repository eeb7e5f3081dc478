//! Values at the ends of their ranges and past them: refusal 11. Also where it tells
//! which depth 0 stands for.

use super::strength::{greatest_area, greatest_moment, least_area};
use super::Described;
use reference::steel::Query;
use std::collections::BTreeSet;

const NAMES: [&str; 6] = ["M", "b", "t", "d", "fc", "fy"];

pub fn queries() -> Vec<Described> {
    [
        single_values(),
        pairs_of_values(),
        corners(),
        depths(),
        default_depths(),
        thin_slabs(),
    ]
    .concat()
}

/// What else a query is while values of it are tried.
fn strips() -> [Query; 3] {
    [
        [2_195_000, 1_000, 150, 124, 30, 420],
        [30_000_000, 3_000, 220, 0, 40, 520],
        [20_000, 12, 90, 50, 20, 280],
    ]
    .map(Query::of)
}

fn with(query: Query, place: usize, number: u128) -> Query {
    let mut numbers = query.numbers();
    numbers[place] = number;
    Query::of(numbers)
}

/// The least and the most of a value's range.
fn ends(query: Query, place: usize) -> [u128; 2] {
    match NAMES[place] {
        "M" => [0, 2_000_000_000],
        "b" => [1, 12_000],
        "t" => [90, 500],
        "d" => [50, query.t.saturating_sub(25)],
        "fc" => [20, 60],
        _ => [280, 520],
    }
}

/// At each end of the range and one past it.
fn ends_and_past(query: Query, place: usize) -> BTreeSet<u128> {
    let [least, most] = ends(query, place);
    BTreeSet::from([least.saturating_sub(1), least, most, most + 1])
}

/// Also one inside each end, 0, all 64 bits, and the query's own value with a high bit more, which a
/// reader of too few bytes would miss.
fn tried_values(query: Query, place: usize) -> BTreeSet<u128> {
    let [least, most] = ends(query, place);
    let own = query.numbers()[place];
    let mut tried = ends_and_past(query, place);
    tried.extend([least + 1, most - 1, 0, u64::MAX.into()]);
    tried.extend([16, 31, 32, 63].map(|bit| own + (1 << bit)));
    if NAMES[place] == "fy" {
        tried.extend([300, 419, 420, 421]);
    }
    tried
}

fn single_values() -> Vec<Described> {
    let mut queries = Vec::new();
    for (strip, query) in (1..).zip(strips()) {
        for (place, name) in NAMES.iter().enumerate() {
            for number in tried_values(query, place) {
                queries.push(Described::new(
                    format!("strip {strip}, {name} {number}"),
                    with(query, place, number),
                ));
            }
        }
    }
    queries
}

fn pairs_of_values() -> Vec<Described> {
    let mut queries = Vec::new();
    let [strip, ..] = strips();
    for (place, name) in NAMES.iter().enumerate() {
        for (other_place, other_name) in NAMES.iter().enumerate().skip(place + 1) {
            for number in ends_and_past(strip, place) {
                let query = with(strip, place, number);
                for other in ends_and_past(query, other_place) {
                    queries.push(Described::new(
                        format!("pair, {name} {number}, {other_name} {other}"),
                        with(query, other_place, other),
                    ));
                }
            }
        }
    }
    queries
}

/// What a corner may have at one place: "d 50..t − 25 or 0", "fy 280, 420 or 520".
fn corner_values(query: Query, place: usize) -> Vec<u128> {
    let mut values = ends(query, place).to_vec();
    match NAMES[place] {
        "d" => values.push(0),
        "fy" => values.push(420),
        _ => (),
    }
    values
}

/// Every value at an end of its range.
fn corners() -> Vec<Described> {
    let [strip, ..] = strips();
    let mut corners = vec![strip];
    for (place, _) in NAMES.iter().enumerate() {
        let mut next = Vec::new();
        for query in corners {
            let values = corner_values(query, place).into_iter();
            next.extend(values.map(|number| with(query, place, number)));
        }
        corners = next;
    }
    let described = |query: Query| Described::new(format!("corner {:?}", query.numbers()), query);
    corners.into_iter().map(described).collect()
}

/// "d 50..t − 25 or 0"
fn depths() -> Vec<Described> {
    let [strip, ..] = strips();
    let mut queries = Vec::new();
    for t in [90, 91, 151, 499, 500] {
        let mut tried = BTreeSet::from([0, 1, 2, 25, 26, 37, 38, 39, 49, 50, 51]);
        tried.extend(t - 40..=t - 36);
        tried.extend(t - 28..=t - 22);
        tried.extend(t - 1..=t + 1);
        for d in tried {
            queries.push(Described::new(
                format!("t {t} with d {d}"),
                Query { t, d, ..strip },
            ));
        }
    }
    queries
}

/// "From now on 0 stands for t − 38" (02, Six), where 1 mm of depth tells: at the greatest moments that the minimum and
/// the strain limit bear at that depth, and at 1 N·cm more. Beside them t − 26, for which 0 stood before.
fn default_depths() -> Vec<Described> {
    let [strip, ..] = strips();
    let mut queries = Vec::new();
    for t in [90, 91, 150, 500] {
        let second_layer = Query {
            t,
            d: t - 38,
            ..strip
        };
        for area in [least_area(second_layer), greatest_area(second_layer)] {
            let carried = greatest_moment(second_layer, area);
            for m in [carried, carried + 1] {
                for d in [0, t - 39, t - 38, t - 37, t - 26] {
                    queries.push(Described::new(
                        format!("default depth, t {t} with M {m}, d {d}"),
                        Query { m, t, d, ..strip },
                    ));
                }
            }
        }
    }
    queries
}

/// Too thin for t − 25 or t − 38 to be a depth, or to be a number at all.
fn thin_slabs() -> Vec<Described> {
    let [strip, ..] = strips();
    let mut queries = Vec::new();
    for t in [
        0, 1, 24, 25, 26, 27, 37, 38, 39, 49, 50, 74, 75, 76, 87, 88, 89,
    ] {
        for d in [0, 1, 50, 51, 63, 64, u64::MAX.into()] {
            queries.push(Described::new(
                format!("thin, t {t} with d {d}"),
                Query { t, d, ..strip },
            ));
        }
    }
    queries
}
