//! The two lists of broken places held together, and floors that are broken everywhere.

use crate::floors::all_floors;
use cases::draw::Draw;
use cases::floors::all_broken::{self, all_broken};
use cases::floors::scattered::scattered;
use cases::floors::{single, LAYOUTS};
use cases::places::broken;
use reference::places::{broken_places, Place, ALWAYS_SUFFICE, NUMBERS};
use reference::verdict::judge;
use std::collections::{BTreeMap, BTreeSet};

/// "a place is listed exactly where its limit's statement holds there, each once, in that order; the sum of the limits
/// listed is the verdict"
#[test]
fn both_lists_and_the_verdict_agree() {
    let singles = single::floors();
    assert!(singles.len() > 800, "{}", singles.len());
    for floor in all_floors().iter().chain(&singles) {
        let (0, verdict) = judge(&floor.bytes) else {
            continue;
        };
        let words = &floor.description;
        let places = broken_places(&floor.bytes);
        let again = broken(&floor.bytes).into_iter().map(|one| one.listed());
        assert_eq!(places, again.collect::<Vec<Place>>(), "{words}");
        assert!(
            places.is_sorted_by(|one, next| one.order() < next.order()),
            "{words}"
        );
        let limits: BTreeSet<u128> = places.iter().map(|place| place.limit).collect();
        assert_eq!(limits.iter().sum::<u128>(), verdict, "{words}");
    }
}

/// How many places of each limit a floor of these bays has.
fn counts(nx: usize, ny: usize) -> [(u128, usize); 7] {
    let few_bays = [nx, ny].iter().filter(|&&bays| bays < 3).count();
    let (panels, columns) = (nx * ny, (nx + 1) * (ny + 1));
    [
        (1, few_bays),
        (2, panels),
        (4, nx - 1 + ny - 1),
        (8, 2 * columns),
        (16, 1),
        (32, panels),
        (64, panels),
    ]
}

#[test]
fn broken_everywhere() {
    for (nx, ny) in (1..=12).flat_map(|nx| (1..=12).map(move |ny| (nx, ny))) {
        let floor = all_broken(nx, ny);
        for floor in [&floor, &floor.transposed()] {
            let places = broken_places(&floor.bytes());
            for (limit, wanted) in counts(nx, ny) {
                let of_limit = places.iter().filter(|place| place.limit == limit);
                assert_eq!(of_limit.count(), wanted, "limit {limit}, {nx}x{ny}");
            }
        }
    }
}

/// The slice that always suffices has no number too many.
#[test]
fn as_many_places_as_there_can_be() {
    assert_eq!(broken_places(&all_broken(2, 2).bytes()).len(), 35);
    let most = broken_places(&all_broken(12, 12).bytes());
    assert_eq!(most.len(), 793);
    assert_eq!(NUMBERS * most.len(), ALWAYS_SUFFICE);
    let all = all_broken::floors();
    assert!(all
        .iter()
        .any(|floor| floor.bytes == all_broken(2, 2).bytes()));
    assert!(all
        .iter()
        .any(|floor| floor.bytes == all_broken(12, 12).bytes()));
}

/// Of each limit that has several places: floors with some of them broken and some not, one of five at the least.
#[test]
fn broken_here_and_there() {
    let mut draw = Draw::starting_at(1);
    let mut in_part = BTreeMap::new();
    for number in 0..300 {
        let (layout, _) = LAYOUTS[number % 3];
        let floor = scattered(&mut draw, (4, 3), layout).bytes();
        let places = broken_places(&floor);
        for (limit, most) in counts(4, 3) {
            let of_limit = places.iter().filter(|place| place.limit == limit);
            if (1..most).contains(&of_limit.count()) {
                *in_part.entry(limit).or_insert(0) += 1;
            }
        }
    }
    assert!(in_part.keys().eq(&[2, 4, 8, 32, 64]), "{in_part:?}");
    assert!(in_part.values().all(|&floors| floors >= 60), "{in_part:?}");
}
