//! The floors that break one limit in one place: that they do, and that at the limit they are clear.

use crate::floors::all_floors;
use cases::floors::single::{self, Single};
use cases::places::{broken, Along, Place};
use reference::clear::clear;
use reference::floor_file::{sizes, Sizes};
use reference::layout::{layout, Layout};
use reference::panel::panel_numbers;
use reference::verdict::judge;
use std::collections::BTreeSet;
use std::sync::LazyLock;

static SINGLES: LazyLock<Vec<Single>> = LazyLock::new(single::all);

#[test]
fn no_two_are_alike() {
    let singles = single::floors();
    let floors = || all_floors().iter().chain(&singles);
    let words: BTreeSet<&str> = floors().map(|floor| &floor.description[..]).collect();
    assert_eq!(words.len(), floors().count());
    let bytes: BTreeSet<&[u8]> = singles.iter().map(|floor| &floor.bytes[..]).collect();
    assert_eq!(bytes.len(), singles.len());
}

#[test]
fn one_limit_in_one_place() {
    for single in SINGLES.iter() {
        let (at, past) = (single.at.bytes(), single.past.bytes());
        let words = &single.words;
        assert_eq!(judge(&at), (0, 0), "{words}");
        assert_eq!(judge(&past), (0, single.limit), "{words}");
        assert_eq!((clear(&at), clear(&past)), ((0, 1), (0, 0)), "{words}");
        let found = broken(&past);
        assert_eq!(found.len(), single.places, "{words}: {found:?}");
    }
}

/// "a refused floor answers no with its number", whatever it breaks.
#[test]
fn broken_and_refused() {
    let refused = single::refused();
    assert_eq!(refused.len(), 7 * 7);
    for (number, floor) in refused {
        let words = &floor.description;
        assert_eq!(judge(&floor.bytes), (number, 255), "{words}");
        assert_eq!(clear(&floor.bytes), (number, 0), "{words}");
    }
}

/// Which one of its direction a panel, a span or a column is.
fn part(place: usize, count: usize) -> &'static str {
    match place {
        0 => "first",
        _ if place + 1 == count => "last",
        _ => "between",
    }
}

/// A direction, and which one along x, along y.
type Where = (Option<Along>, Vec<&'static str>);

fn found_at(place: Place, Sizes { nx, ny, .. }: Sizes) -> Where {
    let (nx, ny) = (nx as usize, ny as usize);
    match place {
        Place::Bays(along) => (Some(along), vec![]),
        Place::Panel(i, j) => (None, vec![part(i, nx), part(j, ny)]),
        Place::Neighbours(Along::X, low) => (Some(Along::X), vec![part(low, nx - 1)]),
        Place::Neighbours(Along::Y, low) => (Some(Along::Y), vec![part(low, ny - 1)]),
        Place::Column(along, i, j) => (Some(along), vec![part(i, nx + 1), part(j, ny + 1)]),
        Place::Loads => (None, vec![]),
    }
}

/// How many different places there are in floors of these bays and this layout that break this limit.
fn places(limit: u128, bays: (u128, u128), wanted: Layout) -> usize {
    let mut found = BTreeSet::new();
    for single in SINGLES.iter().filter(|single| single.limit == limit) {
        let bytes = single.past.bytes();
        let sizes = sizes(&bytes);
        if (sizes.nx, sizes.ny) == bays && layout(&bytes) == Some(wanted) {
            let broken = broken(&bytes).into_iter();
            let at = broken.map(|broken| found_at(broken.place, sizes));
            found.insert(at.collect::<Vec<Where>>());
        }
    }
    found.len()
}

/// Of panels the four corners and one between; with edge beams alone the eight of a rim, without beams the two ends of
/// an inner bay or all of an outer one, along x and along y. Of neighbours the first and the last two in each direction, of columns three by three in
/// each direction.
#[test]
fn every_place_in_every_layout() {
    use Layout::{Everywhere, NoBeams, OuterLinesOnly};
    for bays in [(3, 3), (3, 12), (12, 3), (12, 12)] {
        for (layout, stiffness, thickness) in
            [(Everywhere, 5, 5), (OuterLinesOnly, 0, 8), (NoBeams, 0, 6)]
        {
            let found = [2, 4, 8, 16, 32, 64].map(|limit| places(limit, bays, layout));
            let wanted = [5, 2 * 2, 2 * 9, 1, stiffness, thickness];
            assert_eq!(found, wanted, "{bays:?} {layout:?}");
        }
    }
    for bays in [(2, 3), (2, 12), (3, 2), (12, 2)] {
        for layout in [Everywhere, OuterLinesOnly, NoBeams] {
            assert_eq!(places(1, bays, layout), 1, "{bays:?} {layout:?}");
        }
    }
}

/// The thickness where equality can be had: one panel asks for exactly the slab, by more than rounding.
#[test]
fn thicknesses_at_equality() {
    let by_spans = |single: &&Single| single.words.contains("by its spans");
    let singles: Vec<_> = SINGLES.iter().filter(by_spans).collect();
    assert_eq!(singles.len(), 5 * 4 * 2);
    for single in singles {
        let Place::Panel(i, j) = broken(&single.past.bytes())[0].place else {
            panic!("{}", single.words);
        };
        let panel = panel_numbers(&single.at.bytes(), i, j);
        assert_eq!((panel.clear_x_span, panel.clear_y_span), (4_500, 4_500));
        assert!(panel.alpha_sum > 80_000);
        assert_eq!(1400 * 110 * 45 * 4_500, 4_500 * 4_500 * (1120 + panel.fy));
    }
}
