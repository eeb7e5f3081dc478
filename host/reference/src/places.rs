//! "Where it is broken" (beyond 02): the list of every place where a limit of the verdict is broken.

use crate::refusals::{refusal, SUCCESS};
use crate::verdict::{
    directions_of_few_bays, live_load_is_too_large, long_panels, stray_columns, thin_panels,
    unbalanced_panels, unlike_neighbours, Direction,
};

#[derive(Clone, Copy, Debug, PartialEq, Eq)]
pub struct Place {
    /// As the verdict counts it: "the limit (1, 2, 4, .. 64)"
    pub limit: u128,
    /// "a direction (0 x, 1 y, 0 where the limit has none)"
    pub direction: u128,
    pub i: u128,
    pub j: u128,
}

/// "Four numbers for each place"
pub const NUMBERS: usize = 4;

/// "how many numbers always suffice": those of a floor of 12 by 12 bays with every panel broken thrice, every two
/// neighbours, every column in both directions, and the loads. Limit 1 is kept there, and fewer bays have fewer places.
pub const ALWAYS_SUFFICE: usize = NUMBERS * (3 * 12 * 12 + 2 * 11 + 2 * 13 * 13 + 1);

impl Place {
    fn of(limit: u128, direction: u128, (i, j): (usize, usize)) -> Place {
        Place {
            limit,
            direction,
            i: i as u128,
            j: j as u128,
        }
    }

    /// "the limit .., a direction .., i, j"
    pub fn numbers(self) -> [u32; NUMBERS] {
        [self.limit, self.direction, self.i, self.j].map(|number| number as u32)
    }

    /// "Order: limit, then direction, then j, then i, rising."
    pub fn order(self) -> [u128; 4] {
        [self.limit, self.direction, self.j, self.i]
    }
}

/// "0 x, 1 y"
fn number(direction: Direction) -> u128 {
    match direction {
        Direction::X => 0,
        Direction::Y => 1,
    }
}

/// "0 where the limit has none"
const NO_DIRECTION: u128 = 0;

/// "limit 1 a direction with fewer than three bays": its i and j are 0.
fn of_bays(floor: &[u8]) -> Vec<Place> {
    let directions = directions_of_few_bays(floor).into_iter();
    let place = |direction| Place::of(1, number(direction), (0, 0));
    directions.map(place).collect()
}

/// "2, 32 and 64 a panel (x bay i, y bay j)"
fn of_panels(limit: u128, panels: Vec<(usize, usize)>) -> Vec<Place> {
    let place = |panel| Place::of(limit, NO_DIRECTION, panel);
    panels.into_iter().map(place).collect()
}

/// "4 the lower of two neighbouring spans in its direction (i for x, j for y, the other 0)"
fn of_neighbours(floor: &[u8]) -> Vec<Place> {
    let lower_spans = unlike_neighbours(floor).into_iter();
    let place = |(direction, lower)| match direction {
        Direction::X => Place::of(4, number(direction), (lower, 0)),
        Direction::Y => Place::of(4, number(direction), (0, lower)),
    };
    lower_spans.map(place).collect()
}

/// "8 the column (i, j), with the direction in which it is off"
fn of_columns(floor: &[u8]) -> Vec<Place> {
    let columns = stray_columns(floor).into_iter();
    let place = |(direction, i, j)| Place::of(8, number(direction), (i, j));
    columns.map(place).collect()
}

/// "16 the floor itself, (0, 0)"
fn of_loads(floor: &[u8]) -> Vec<Place> {
    match live_load_is_too_large(floor) {
        true => vec![Place::of(16, NO_DIRECTION, (0, 0))],
        false => Vec::new(),
    }
}

/// "a place is listed exactly where its limit's statement holds there, each once, in that order", of a floor that is
/// not refused.
pub fn broken_places(floor: &[u8]) -> Vec<Place> {
    let mut places = [
        of_bays(floor),
        of_panels(2, long_panels(floor)),
        of_neighbours(floor),
        of_columns(floor),
        of_loads(floor),
        of_panels(32, unbalanced_panels(floor)),
        of_panels(64, thin_panels(floor)),
    ]
    .concat();
    places.sort_by_key(|place| place.order());
    places
}

/// "Refusals: 1 to 7, then 25: the slice is too short for this floor's places."
///
/// Answers the refusal and "how many places"; "a refused call has value 0, as every query". "A refusal writes nothing,
/// and what lies past the places stays."
pub fn places(floor: &[u8], lent: &mut [u32]) -> (u128, u128) {
    let refused = refusal(floor);
    if refused != SUCCESS {
        return (refused, 0);
    }
    let places = broken_places(floor);
    let numbers = places.iter().flat_map(|place| place.numbers());
    let numbers: Vec<u32> = numbers.collect();
    if lent.len() < numbers.len() {
        return (25, 0);
    }
    lent[..numbers.len()].copy_from_slice(&numbers);
    (SUCCESS, places.len() as u128)
}
