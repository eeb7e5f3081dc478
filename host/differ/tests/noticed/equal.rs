//! Libraries for which a limit is broken where it is just reached: "equality always passes".

use crate::clear::answer;
use crate::noticed_in_floors;
use crate::places::{with_list, Place};
use cases::places::shorter_adjoining;
use differ::job::{Calls, LIBRARY};
use floor::Floor;
use gandhrumil::Answer;
use reference::layout::{layout, Layout};
use reference::panel::{least_thickness, panels, x_line_alphas, y_line_alphas};

/// The places where a floor that is taken is at a limit.
type AtLimit = fn(&Floor, &[u8]) -> Vec<Place>;

fn directions(floor: &Floor) -> [(u32, &[u32]); 2] {
    [(0, &floor.x_spans), (1, &floor.y_spans)]
}

fn panels_where(limit: u32, bytes: &[u8], is_so: impl Fn(usize, usize) -> bool) -> Vec<Place> {
    let panels = panels(bytes).into_iter();
    let meant = panels.filter(|&(i, j)| is_so(i, j));
    meant.map(|(i, j)| [limit, 0, i as u32, j as u32]).collect()
}

fn three_bays(floor: &Floor, _: &[u8]) -> Vec<Place> {
    let three = directions(floor).into_iter();
    let three = three.filter(|(_, spans)| spans.len() == 3);
    three.map(|(direction, _)| [1, direction, 0, 0]).collect()
}

fn twice_as_long(floor: &Floor, bytes: &[u8]) -> Vec<Place> {
    panels_where(2, bytes, |i, j| {
        let (x, y) = (floor.x_spans[i], floor.y_spans[j]);
        x == 2 * y || y == 2 * x
    })
}

fn a_third_less(floor: &Floor, _: &[u8]) -> Vec<Place> {
    let mut places = Vec::new();
    for (direction, spans) in directions(floor) {
        for (lower, pair) in (0..).zip(spans.windows(2)) {
            if 3 * pair[0].abs_diff(pair[1]) == pair[0].max(pair[1]) {
                let (i, j) = [(lower, 0), (0, lower)][direction as usize];
                places.push([4, direction, i, j]);
            }
        }
    }
    places
}

fn a_tenth_off(floor: &Floor, _: &[u8]) -> Vec<Place> {
    let y_lines = floor.x_spans.len() + 1;
    let mut places = Vec::new();
    for (index, &(along_x, along_y)) in floor.offsets.iter().enumerate() {
        let (i, j) = (index % y_lines, index / y_lines);
        let column = |direction| [8, direction, i as u32, j as u32];
        if 10 * along_x == shorter_adjoining(i, &floor.x_spans) {
            places.push(column(0));
        }
        if 10 * along_y == shorter_adjoining(j, &floor.y_spans) {
            places.push(column(1));
        }
    }
    places
}

fn twice_the_dead_load(floor: &Floor, _: &[u8]) -> Vec<Place> {
    match floor.live == 2 * floor.dead {
        true => vec![[16, 0, 0, 0]],
        false => Vec::new(),
    }
}

fn five_times_as_stiff(floor: &Floor, bytes: &[u8]) -> Vec<Place> {
    if layout(bytes) != Some(Layout::Everywhere) {
        return Vec::new();
    }
    let (on_x, on_y) = (x_line_alphas(bytes), y_line_alphas(bytes));
    let squared = |span: u32| u128::from(span).pow(2);
    panels_where(32, bytes, |i, j| {
        let p = (on_x[j] + on_x[j + 1]) * squared(floor.y_spans[j]);
        let q = (on_y[i] + on_y[i + 1]) * squared(floor.x_spans[i]);
        p == 5 * q || q == 5 * p
    })
}

fn just_thick_enough(floor: &Floor, bytes: &[u8]) -> Vec<Place> {
    let asked = |i, j| least_thickness(bytes, i, j);
    panels_where(64, bytes, |i, j| asked(i, j) == floor.t.into())
}

const AT_LIMIT: [AtLimit; 7] = [
    three_bays,
    twice_as_long,
    a_third_less,
    a_tenth_off,
    twice_the_dead_load,
    five_times_as_stiff,
    just_thick_enough,
];

/// Of a floor that is taken.
fn at_limit<const LIMIT: usize>(floor: &[u8]) -> Vec<Place> {
    let numbers = Floor::of(floor).expect("a floor that is taken");
    AT_LIMIT[LIMIT](&numbers, floor)
}

/// The right library, but that it says no at a limit.
fn clear_below<const LIMIT: usize>(floor: &[u8]) -> Answer {
    match gandhrumil::clear(floor) {
        Answer {
            refusal: 0,
            value: 1,
        } => answer(0, at_limit::<LIMIT>(floor).is_empty().into()),
        right => right,
    }
}

/// The right library, but that it lists the places at a limit with those past it.
fn places_from<const LIMIT: usize>(floor: &[u8], lent: &mut [u32]) -> Answer {
    with_list(floor, lent, |mut list| {
        list.extend(at_limit::<LIMIT>(floor));
        list.sort_by_key(|&[limit, direction, i, j]| [limit, direction, j, i]);
        list
    })
}

const fn wrong_about<const LIMIT: usize>() -> [Calls; 2] {
    let clear = Calls {
        clear: clear_below::<LIMIT>,
        ..LIBRARY
    };
    let places = Calls {
        places: places_from::<LIMIT>,
        ..LIBRARY
    };
    [clear, places]
}

#[test]
fn equality_does_not_pass() {
    for [clear, places] in [
        wrong_about::<0>(),
        wrong_about::<1>(),
        wrong_about::<2>(),
        wrong_about::<3>(),
        wrong_about::<4>(),
        wrong_about::<5>(),
        wrong_about::<6>(),
    ] {
        let noticed = noticed_in_floors(clear);
        let words = "clear: the library answers refusal 0 and 0, right is refusal 0 and 1";
        assert!(noticed.contains(words), "{noticed}");
        let noticed = noticed_in_floors(places);
        assert!(noticed.contains(": places, "), "{noticed}");
    }
}
