//! Libraries that list other places, or write where they must not (beyond 02, "Where it is broken").

use crate::clear::answer;
use crate::{assert_noticed, noticed_in_floors};
use cases::floors::Described;
use differ::case::Case;
use differ::job::{Calls, Places, LIBRARY};
use differ::places;
use gandhrumil::{Answer, PLACES_LEN};
use reference::floor_file::{sizes, Sizes};
use reference::places::NUMBERS;

/// Limit, direction, i, j.
pub type Place = [u32; NUMBERS];

/// Asked for its places, and nothing more.
pub fn asked(case: &mut Case, floor: &Described) -> Result<(), String> {
    let lent = case.lend(&floor.bytes);
    let compared = places::compare(case, &floor.bytes, &lent);
    compared.map_err(|words| format!("{}: {words}", floor.description))
}

/// The right library, but that it has another list of a floor's places.
pub fn with_list(
    floor: &[u8],
    lent: &mut [u32],
    alter: impl FnOnce(Vec<Place>) -> Vec<Place>,
) -> Answer {
    let mut right = [0; PLACES_LEN];
    let Answer { refusal: 0, value } = gandhrumil::places(floor, &mut right) else {
        return gandhrumil::places(floor, lent);
    };
    let (right, _) = right.as_chunks();
    let list = alter(right[..value as usize].to_vec());
    let numbers = list.as_flattened();
    match lent.get_mut(..numbers.len()) {
        Some(written) => {
            written.copy_from_slice(numbers);
            answer(0, list.len() as u32)
        }
        None => answer(25, 0),
    }
}

fn last_panel_left_out(floor: &[u8], lent: &mut [u32]) -> Answer {
    with_list(floor, lent, |mut list| {
        let Sizes { nx, ny, .. } = sizes(floor);
        let last = [nx as u32 - 1, ny as u32 - 1];
        list.retain(|&[limit, _, i, j]| ![2, 32, 64].contains(&limit) || [i, j] != last);
        list
    })
}

fn one_place_of_a_limit(floor: &[u8], lent: &mut [u32]) -> Answer {
    with_list(floor, lent, |mut list| {
        list.dedup_by_key(|[limit, ..]| *limit);
        list
    })
}

fn one_place_of_a_direction(floor: &[u8], lent: &mut [u32]) -> Answer {
    with_list(floor, lent, |mut list| {
        list.dedup_by_key(|[limit, direction, ..]| (*limit, *direction));
        list
    })
}

fn column_by_column(floor: &[u8], lent: &mut [u32]) -> Answer {
    with_list(floor, lent, |mut list| {
        list.sort();
        list
    })
}

/// A panel's places of all its limits together.
fn place_by_place(floor: &[u8], lent: &mut [u32]) -> Answer {
    with_list(floor, lent, |mut list| {
        list.sort_by_key(|&[limit, direction, i, j]| [j, i, limit, direction]);
        list
    })
}

/// The directions of a column together.
fn direction_last(floor: &[u8], lent: &mut [u32]) -> Answer {
    with_list(floor, lent, |mut list| {
        list.sort_by_key(|&[limit, direction, i, j]| [limit, j, i, direction]);
        list
    })
}

fn i_and_j_exchanged(floor: &[u8], lent: &mut [u32]) -> Answer {
    with_list(floor, lent, |list| {
        let exchanged = |[limit, direction, i, j]: Place| [limit, direction, j, i];
        list.into_iter().map(exchanged).collect()
    })
}

fn direction_missing(floor: &[u8], lent: &mut [u32]) -> Answer {
    with_list(floor, lent, |list| {
        let without = |[limit, _, i, j]: Place| [limit, 0, i, j];
        list.into_iter().map(without).collect()
    })
}

/// A panel is told the direction of its longer span.
fn direction_of_a_panel(floor: &[u8], lent: &mut [u32]) -> Answer {
    with_list(floor, lent, |list| {
        let of_long = |[limit, direction, i, j]: Place| match limit {
            2 => [limit, 1, i, j],
            _ => [limit, direction, i, j],
        };
        list.into_iter().map(of_long).collect()
    })
}

fn along_x_alone(floor: &[u8], lent: &mut [u32]) -> Answer {
    with_list(floor, lent, |mut list| {
        list.retain(|[_, direction, ..]| *direction == 0);
        list
    })
}

fn higher_of_two_neighbours(floor: &[u8], lent: &mut [u32]) -> Answer {
    with_list(floor, lent, |list| {
        let higher = |[limit, direction, i, j]: Place| match (limit, direction) {
            (4, 0) => [limit, direction, i + 1, j],
            (4, _) => [limit, direction, i, j + 1],
            _ => [limit, direction, i, j],
        };
        list.into_iter().map(higher).collect()
    })
}

fn each_twice(floor: &[u8], lent: &mut [u32]) -> Answer {
    with_list(floor, lent, |list| {
        list.into_iter().flat_map(|place| [place; 2]).collect()
    })
}

#[test]
fn wrong_lists() {
    let wrong: [Places; 12] = [
        last_panel_left_out,
        one_place_of_a_limit,
        one_place_of_a_direction,
        column_by_column,
        place_by_place,
        direction_last,
        i_and_j_exchanged,
        direction_missing,
        direction_of_a_panel,
        along_x_alone,
        higher_of_two_neighbours,
        each_twice,
    ];
    for places in wrong {
        let calls = Calls { places, ..LIBRARY };
        assert_noticed("floors", calls, ": places, ");
        let noticed = noticed_in_floors(calls);
        assert!(noticed.contains(": places, "), "{noticed}");
    }
}
