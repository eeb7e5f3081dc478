//! Libraries that do not look at some places: they say yes (02, Four), and list fewer (beyond 02).

use crate::clear::{self, answer};
use crate::places::{self, with_list};
use crate::{assert_noticed, noticed_in, SINGLES};
use cases::places::{broken, Along, Broken, Place};
use differ::job::{Calls, LIBRARY};
use gandhrumil::Answer;
use reference::floor_file::{sizes, Sizes};
use reference::layout::{layout, Layout};
use std::sync::Mutex;

/// Whether a library looks at a broken place of a floor of nx by ny bays.
type Looks = fn(&Broken, usize, usize) -> bool;

#[derive(Clone, Copy)]
struct Wrong {
    looks: Looks,
    /// The sum of the limits that it is wrong about.
    limits: u128,
    /// The one layout that it is wrong about, if not all.
    layout: Option<Layout>,
}

impl Wrong {
    fn looks_at(self, place: &Broken, floor: &[u8]) -> bool {
        let Sizes { nx, ny, .. } = sizes(floor);
        let is_right = place.limit & self.limits == 0
            || self
                .layout
                .is_some_and(|wrong| layout(floor) != Some(wrong));
        is_right || (self.looks)(place, nx as usize, ny as usize)
    }
}

/// One test tries one after another.
static WRONG: Mutex<Option<Wrong>> = Mutex::new(None);

const SAYS_YES: Calls = Calls {
    clear: clear_of_what_is_seen,
    ..LIBRARY
};

const LISTS_FEWER: Calls = Calls {
    places: places_that_are_seen,
    ..LIBRARY
};

/// The right library, but that it says yes where it looks at no broken place.
fn clear_of_what_is_seen(floor: &[u8]) -> Answer {
    let wrong = WRONG.lock().unwrap().expect("a wrong library");
    match gandhrumil::clear(floor) {
        Answer { refusal: 0, .. } => {
            let places = broken(floor);
            let seen = places.iter().any(|place| wrong.looks_at(place, floor));
            answer(0, u32::from(!seen))
        }
        refused => refused,
    }
}

/// The right library, but that it lists the places that it looks at.
fn places_that_are_seen(floor: &[u8], lent: &mut [u32]) -> Answer {
    let wrong = WRONG.lock().unwrap().expect("a wrong library");
    with_list(floor, lent, |_| {
        let places = broken(floor).into_iter();
        let seen = places.filter(|place| wrong.looks_at(place, floor));
        seen.map(|place| place.listed().numbers()).collect()
    })
}

/// All that is no panel, and the panels that are meant, by x bay and y bay.
fn panels(broken: &Broken, meant: impl Fn(usize, usize) -> bool) -> bool {
    match broken.place {
        Place::Panel(i, j) => meant(i, j),
        _ => true,
    }
}

/// All that is no offset, and the columns that are meant, by y line and x line.
fn columns(broken: &Broken, meant: impl Fn(usize, usize) -> bool) -> bool {
    match broken.place {
        Place::Column(_, i, j) => meant(i, j),
        _ => true,
    }
}

fn not_along(broken: &Broken, blind: Along) -> bool {
    match broken.place {
        Place::Bays(along) | Place::Neighbours(along, _) | Place::Column(along, ..) => {
            along != blind
        }
        Place::Panel(..) | Place::Loads => true,
    }
}

const NOWHERE: Looks = |_, _, _| false;

const PANELS: [Looks; 10] = [
    // Rows: all but the last, all but the first, the first alone, the last alone.
    |broken, _, ny| panels(broken, |_, j| j + 1 < ny),
    |broken, _, _| panels(broken, |_, j| j > 0),
    |broken, _, _| panels(broken, |_, j| j == 0),
    |broken, _, ny| panels(broken, |_, j| j + 1 == ny),
    // Of each row: all but the last panel, all but the first, the first alone, the last alone.
    |broken, nx, _| panels(broken, |i, _| i + 1 < nx),
    |broken, _, _| panels(broken, |i, _| i > 0),
    |broken, _, _| panels(broken, |i, _| i == 0),
    |broken, nx, _| panels(broken, |i, _| i + 1 == nx),
    // nx and ny taken for each other; all but the last.
    |broken, nx, ny| panels(broken, |i, j| i < ny && j < nx),
    |broken, nx, ny| panels(broken, |i, j| (i + 1, j + 1) != (nx, ny)),
];

const COLUMNS: [Looks; 8] = [
    // All but those of the last x line, of the last y line, of the first of each.
    |broken, _, ny| columns(broken, |_, j| j < ny),
    |broken, nx, _| columns(broken, |i, _| i < nx),
    |broken, _, _| columns(broken, |_, j| j > 0),
    |broken, _, _| columns(broken, |i, _| i > 0),
    // All but the last; nx and ny taken for each other.
    |broken, nx, ny| columns(broken, |i, j| (i, j) != (nx, ny)),
    |broken, nx, ny| columns(broken, |i, j| i <= ny && j <= nx),
    |broken, _, _| not_along(broken, Along::X),
    |broken, _, _| not_along(broken, Along::Y),
];

const NEIGHBOURS: [Looks; 4] = [
    // All but the last two, all but the first two.
    |broken, nx, ny| match broken.place {
        Place::Neighbours(Along::X, low) => low + 2 < nx,
        Place::Neighbours(Along::Y, low) => low + 2 < ny,
        _ => true,
    },
    |broken, _, _| !matches!(broken.place, Place::Neighbours(_, 0)),
    |broken, _, _| not_along(broken, Along::X),
    |broken, _, _| not_along(broken, Along::Y),
];

const BAYS: [Looks; 2] = [
    |broken, _, _| not_along(broken, Along::X),
    |broken, _, _| not_along(broken, Along::Y),
];

const LIMITS: [u128; 7] = [1, 2, 4, 8, 16, 32, 64];

/// What a library may look at and be wrong about a limit in a layout.
fn looks_of(limit: u128, layout: Layout) -> &'static [Looks] {
    match (limit, layout) {
        (1, _) => &BAYS,
        (4, _) => &NEIGHBOURS,
        (8, _) => &COLUMNS,
        (16, _) => &[],
        // The last panel is never the only one that is too thin.
        (64, Layout::NoBeams) => &PANELS[..PANELS.len() - 1],
        _ => &PANELS,
    }
}

/// In one layout; nowhere is among what it looks at. 32 is for beams everywhere.
fn wrong_about(limit: u128, layout: Layout) -> Vec<Wrong> {
    if limit == 32 && layout != Layout::Everywhere {
        return Vec::new();
    }
    let looks = looks_of(limit, layout).iter().chain([&NOWHERE]);
    let wrong = |&looks: &Looks| Wrong {
        looks,
        limits: limit,
        layout: Some(layout),
    };
    looks.map(wrong).collect()
}

const YES: &str = "clear: the library answers refusal 0 and 1, right is refusal 0 and 0";
const FEWER: &str = ": places, ";

fn assert_noticed_in_singles() {
    let mut tried = 0;
    for layout in [Layout::Everywhere, Layout::OuterLinesOnly, Layout::NoBeams] {
        for wrong in LIMITS.iter().flat_map(|&limit| wrong_about(limit, layout)) {
            *WRONG.lock().unwrap() = Some(wrong);
            let noticed = noticed_in(&SINGLES, SAYS_YES, clear::asked);
            assert!(noticed.contains(YES), "{noticed}");
            let noticed = noticed_in(&SINGLES, LISTS_FEWER, places::asked);
            assert!(noticed.contains(FEWER), "{noticed}");
            tried += 1;
        }
    }
    assert_eq!(tried, 51 + 40 + 39);
}

/// A limit left out, or a part of a floor left out of all limits.
fn assert_noticed_in_drawn_floors() {
    let left_out = LIMITS.iter().map(|&limit| (NOWHERE, limit));
    let parts = [&BAYS[..], &NEIGHBOURS, &COLUMNS, &PANELS].concat();
    let parts = parts.into_iter().map(|looks| (looks, LIMITS.iter().sum()));
    for (looks, limits) in left_out.chain(parts) {
        let layout = None;
        *WRONG.lock().unwrap() = Some(Wrong {
            looks,
            limits,
            layout,
        });
        assert_noticed("floors", SAYS_YES, YES);
        assert_noticed("floors", LISTS_FEWER, FEWER);
    }
}

#[test]
fn what_is_not_looked_at() {
    assert_noticed_in_singles();
    assert_noticed_in_drawn_floors();
}
