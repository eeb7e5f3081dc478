//! "Where it is broken" (beyond 02): each limit's places alone, then all of them, and what is lent.

use crate::clear::edges;
use crate::hand_made::{self, ONE_BAY, THIN, TWO_BY_ONE};
use crate::verdict::{even, refused, STIFF, WEAK};
use floor::{Floor, NO_BEAM};
use reference::places::{places, ALWAYS_SUFFICE};
use reference::verdict::judge;

const HELD: u32 = 7_777;

/// Limit, direction, i, j.
type Numbers = [u32; 4];

/// As they are written to a slice with room for any floor's.
#[track_caller]
fn listed(floor: &[u8]) -> Vec<Numbers> {
    let mut lent = vec![HELD; ALWAYS_SUFFICE];
    let (refused, count) = places(floor, &mut lent);
    assert_eq!(refused, 0);
    let (numbers, past) = lent.split_at(4 * count as usize);
    assert!(past.iter().all(|&number| number == HELD));
    let four = |place: &[u32]| place.try_into().unwrap();
    numbers.chunks(4).map(four).collect()
}

#[track_caller]
fn assert_listed(floor: &Floor, expected: &[Numbers]) {
    assert_eq!(listed(&floor.bytes()), expected, "{floor:?}");
}

/// The places with x and y changed round.
fn transposed(places: &[Numbers]) -> Vec<Numbers> {
    let across = |&[limit, direction, i, j]: &Numbers| match limit {
        1 | 4 | 8 => [limit, 1 - direction, j, i],
        _ => [limit, direction, j, i],
    };
    let mut places: Vec<Numbers> = places.iter().map(across).collect();
    places.sort_by_key(|&[limit, direction, i, j]| [limit, direction, j, i]);
    places
}

/// No limit tells x from y.
#[track_caller]
fn assert_listed_both_ways(floor: &Floor, expected: &[Numbers]) {
    assert_listed(floor, expected);
    assert_listed(&floor.transposed(), &transposed(expected));
}

/// 7000 less 350 asks for 6650/36 = 184.7 of 180 in both bays.
#[test]
fn typed_floors() {
    let bays = [[1, 0, 0, 0], [1, 1, 0, 0]];
    for (text, thin) in [
        (ONE_BAY, &[][..]),
        (THIN, &[[64, 0, 0, 0]]),
        (TWO_BY_ONE, &[[64, 0, 0, 0], [64, 0, 1, 0]]),
    ] {
        assert_eq!(listed(&hand_made::floor(text)), [&bays, thin].concat());
    }
}

/// "none is listed exactly when the floor is clear"
#[test]
fn clear_floors() {
    for (nx, ny) in [(3, 3), (3, 12), (12, 12)] {
        assert_listed(&Floor::clear(nx, ny), &[]);
        assert_eq!(places(&Floor::clear(nx, ny).bytes(), &mut []), (0, 0));
    }
}

/// "limit 1 a direction with fewer than three bays"
#[test]
fn limit_1() {
    for (nx, ny, expected) in [
        (2, 3, &[[1, 0, 0, 0]][..]),
        (1, 12, &[[1, 0, 0, 0]]),
        (12, 2, &[[1, 1, 0, 0]]),
        (3, 1, &[[1, 1, 0, 0]]),
        (2, 2, &[[1, 0, 0, 0], [1, 1, 0, 0]]),
        (3, 3, &[]),
    ] {
        assert_listed(&Floor::clear(nx, ny), expected);
    }
}

/// "2 .. a panel (x bay i, y bay j)": where 6,020 meets 3,000, and not where it meets 3,020 or 6,000 meets 3,000.
#[test]
fn limit_2() {
    let mut floor = Floor::clear(4, 3);
    floor.x_spans = vec![6_000, 6_020, 6_000, 6_020];
    floor.y_spans = vec![3_000, 3_020, 3_000];
    let panels = [[2, 0, 1, 0], [2, 0, 3, 0], [2, 0, 1, 2], [2, 0, 3, 2]];
    assert_listed_both_ways(&floor, &panels);
}

/// "4 the lower of two neighbouring spans in its direction (i for x, j for y, the other 0)". "Neighbours 6,000 and
/// 4,000 pass, 3,980 breaks."
#[test]
fn limit_4() {
    let mut floor = Floor::clear(6, 4);
    floor.x_spans = vec![6_000, 3_980, 5_000, 3_980, 6_000, 4_000];
    floor.y_spans = vec![6_000, 4_000, 6_000, 3_980];
    let lower = [[4, 0, 0, 0], [4, 0, 3, 0], [4, 1, 0, 2]];
    assert_listed_both_ways(&floor, &lower);
}

/// "8 the column (i, j), with the direction in which it is off": column j·4 + i of 3 by 3 bays. "Offset 600 on 6,000
/// passes, 601 breaks".
#[test]
fn limit_8() {
    let mut floor = Floor::clear(3, 3);
    floor.offsets = vec![(600, 600); 16];
    assert_listed(&floor, &[]);
    floor.offsets[2] = (601, 600);
    floor.offsets[7] = (601, 601);
    floor.offsets[12] = (600, 601);
    floor.offsets[15] = (601, 0);
    let along_x = [[8, 0, 2, 0], [8, 0, 3, 1], [8, 0, 3, 3]];
    let along_y = [[8, 1, 3, 1], [8, 1, 0, 3]];
    assert_listed_both_ways(&floor, &[&along_x[..], &along_y].concat());
}

/// "a span adjoining that column in its direction": 501 is too much on both sides of the bay of 5,000 and nowhere else.
#[test]
fn limit_8_beside_a_shorter_bay() {
    let mut floor = Floor::clear(3, 4);
    floor.x_spans[1] = 5_000;
    floor.offsets = vec![(501, 600); 20];
    let columns = (0..5).flat_map(|j| [[8, 0, 1, j], [8, 0, 2, j]]);
    assert_listed_both_ways(&floor, &columns.collect::<Vec<_>>());
}

/// "16 the floor itself, (0, 0)"
#[test]
fn limit_16() {
    for (live, expected) in [(10_000, &[][..]), (10_001, &[[16, 0, 0, 0]])] {
        let floor = Floor {
            dead: 5_000,
            live,
            ..Floor::clear(3, 3)
        };
        assert_listed(&floor, expected);
    }
}

/// p = 5q in every panel; an x line that is stiffer makes p larger in the rows on both sides of it, a y line that is
/// weaker q smaller in the columns.
#[test]
fn limit_32() {
    let at = even(3, 4, (3_000, 3_000), (STIFF, WEAK));
    assert_listed_both_ways(&at, &[]);
    let mut floor = at.clone();
    floor.x_lines[2].0 += 1;
    let rows = [1, 2]
        .into_iter()
        .flat_map(|j| [0, 1, 2].map(|i| [32, 0, i, j]));
    assert_listed_both_ways(&floor, &rows.collect::<Vec<_>>());
    let mut floor = at;
    floor.y_lines[3].0 -= 1;
    assert_listed_both_ways(&floor, &[0, 1, 2, 3].map(|j| [32, 0, 2, j]));
}

/// Without beams 8,000 less 400 asks an outer panel for 7600/30 = 253.3, an inner one for 7600/33 = 230.3.
#[test]
fn limit_64() {
    for (bay, t, rows) in [
        (0, 253, &[0, 1, 2][..]),
        (1, 253, &[0, 2]),
        (1, 231, &[0, 2]),
        (1, 230, &[0, 1, 2]),
        (3, 253, &[0, 1, 2]),
        (1, 254, &[]),
    ] {
        let mut floor = Floor {
            t,
            ..Floor::clear(4, 3)
        };
        floor.x_spans[bay] = 8_000;
        let thin: Vec<Numbers> = rows.iter().map(|&j| [64, 0, bay as u32, j]).collect();
        assert_listed_both_ways(&floor, &thin);
    }
}

/// "equality always passes", and a limit alone is listed alone.
#[test]
fn each_limit_alone() {
    for (limit, at, alter) in edges() {
        assert_listed(&at, &[]);
        let mut past = at;
        alter(&mut past);
        let limits = listed(&past.bytes()).into_iter().map(|[limit, ..]| limit);
        let mut limits: Vec<u32> = limits.collect();
        limits.dedup();
        assert_eq!(limits, [limit as u32]);
    }
}

/// 3,060 is more than twice 1,520; 3·(4,600 − 3,060) is 4,620 and 3·(1,520 − 1,000) is 1,560; 10·461 is 4,610 and
/// 10·153 is 1,530; q is many times p; S stays below 80000, so that every panel asks for 125.
fn broken_everywhere() -> Floor {
    Floor {
        t: 90,
        dead: 1_000,
        live: 2_001,
        cx: 200,
        cy: 200,
        x_spans: vec![3_060, 4_600],
        y_spans: vec![1_000, 1_520],
        x_lines: vec![(150, 91); 3],
        y_lines: vec![(150, 200); 3],
        offsets: vec![(461, 153); 9],
        ..Floor::good(2, 2)
    }
}

const PANELS: [(u32, u32); 4] = [(0, 0), (1, 0), (0, 1), (1, 1)];
const COLUMNS: [(u32, u32); 9] = [
    (0, 0),
    (1, 0),
    (2, 0),
    (0, 1),
    (1, 1),
    (2, 1),
    (0, 2),
    (1, 2),
    (2, 2),
];

/// "Order: limit, then direction, then j, then i, rising." 2 + 4 + 2 + 18 + 1 + 4 + 4 places.
#[test]
fn every_limit_at_every_place() {
    let mut expected = vec![[1, 0, 0, 0], [1, 1, 0, 0]];
    expected.extend(PANELS.map(|(i, j)| [2, 0, i, j]));
    expected.extend([[4, 0, 0, 0], [4, 1, 0, 0]]);
    expected.extend(COLUMNS.map(|(i, j)| [8, 0, i, j]));
    expected.extend(COLUMNS.map(|(i, j)| [8, 1, i, j]));
    expected.push([16, 0, 0, 0]);
    expected.extend(PANELS.map(|(i, j)| [32, 0, i, j]));
    expected.extend(PANELS.map(|(i, j)| [64, 0, i, j]));
    assert_eq!(expected.len(), 35);
    assert_listed_both_ways(&broken_everywhere(), &expected);
}

/// "the sum of the limits listed is the verdict"
#[test]
fn the_sum_is_the_verdict() {
    let mut floor = broken_everywhere();
    let mut assert_sum = |alter: fn(&mut Floor), expected: u128| {
        alter(&mut floor);
        let mut limits: Vec<u32> = listed(&floor.bytes())
            .iter()
            .map(|place| place[0])
            .collect();
        limits.dedup();
        assert_eq!(u128::from(limits.iter().sum::<u32>()), expected);
        assert_eq!(judge(&floor.bytes()), (0, expected));
    };
    assert_sum(|_| (), 127);
    assert_sum(|floor| floor.live = 2_000, 127 - 16);
    assert_sum(|floor| floor.offsets.fill((100, 100)), 127 - 16 - 8);
    assert_sum(
        |floor| {
            floor.x_lines.fill(NO_BEAM);
            floor.y_lines.fill(NO_BEAM);
        },
        1 + 2 + 4 + 64,
    );
    assert_sum(|floor| floor.t = 147, 1 + 2 + 4);
    assert_sum(|floor| floor.x_spans = vec![1_520, 1_000], 1 + 4);
    assert_sum(|floor| *floor = Floor::clear(2, 3), 1);
    assert_sum(|floor| *floor = Floor::clear(3, 3), 0);
}

/// Nothing is written whatever is lent.
#[track_caller]
fn assert_refused(floor: &[u8], length: usize, expected: u128) {
    let mut lent = vec![HELD; length];
    assert_eq!(places(floor, &mut lent), (expected, 0));
    assert_eq!(lent, vec![HELD; length]);
}

/// "25: the slice is too short for this floor's places"
#[test]
fn a_slice_too_short() {
    for (floor, count) in [
        (broken_everywhere(), 35),
        (Floor::clear(2, 3), 1),
        (Floor::clear(2, 2), 2),
    ] {
        let floor = floor.bytes();
        for length in 0..4 * count {
            assert_refused(&floor, length, 25);
        }
        assert_eq!(listed(&floor).len(), count);
    }
}

/// "what lies past the places stays"
#[test]
fn as_many_as_needed_and_more() {
    let floor = broken_everywhere().bytes();
    let right = listed(&floor).concat();
    for tail in [0, 1, 3, 4, 3_000] {
        let mut lent = vec![HELD; 140 + tail];
        assert_eq!(places(&floor, &mut lent), (0, 35));
        assert_eq!(lent, [&right[..], &vec![HELD; tail]].concat());
    }
}

/// "Refusals: 1 to 7, then 25"
#[test]
fn refused_floors() {
    let mut floors = refused();
    floors.push((1, Vec::new()));
    floors.push((1, [broken_everywhere().bytes(), vec![0]].concat()));
    for (number, floor) in floors {
        for length in [0, 1, 4, ALWAYS_SUFFICE] {
            assert_refused(&floor, length, number);
        }
    }
}

/// Panels, neighbours, columns, loads and directions of few bays, all broken.
fn most_numbers(nx: usize, ny: usize) -> usize {
    let few_bays = [nx, ny].into_iter().filter(|&bays| bays < 3).count();
    let places = few_bays + 3 * nx * ny + (nx - 1) + (ny - 1) + 2 * (nx + 1) * (ny + 1) + 1;
    4 * places
}

#[test]
fn how_many_always_suffice() {
    assert_eq!(ALWAYS_SUFFICE, 3_172);
    let sizes = (1..=12).flat_map(|nx| (1..=12).map(move |ny| (nx, ny)));
    let most = sizes.map(|(nx, ny)| most_numbers(nx, ny)).max();
    assert_eq!(most, Some(ALWAYS_SUFFICE));
}
