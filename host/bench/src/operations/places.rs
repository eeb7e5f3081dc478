//! The places where a floor is broken: none, one, all that it has; refused. The verdict of the same floors is timed
//! beside them, where there is none by `clear, yes`, which works it out whole, elsewhere by an opening, which writes
//! zeros besides.

use super::clear::{last_column_off, panel_too_thin};
use super::openings::open;
use super::{out_of_range, overloaded, Operation, Work};
use crate::floors::{with_beams, without_beams};
use crate::size::Size;
use cases::floors::all_broken::all_broken;
use floor::Floor;
use reference::places::{self, ALWAYS_SUFFICE, NUMBERS};
use reference::verdict::judge;

/// `right` is the refusal and how many places the floor is to have, in a slice of so many numbers.
fn places(name: &'static str, floor: &Floor, length: usize, right: (u128, u128)) -> Operation {
    let floor = floor.bytes();
    let given = places::places(&floor, &mut vec![0; length]);
    assert_eq!(given, right, "{name}");
    Operation {
        name,
        floor,
        work: Work::Places(length),
        answer: (right.0 as u32, right.1 as u32),
        writes: 0,
    }
}

/// Of limits 2, 32 and 64 the panels, of 4 the neighbours, of 8 the columns twice, and 16. There are bays enough.
fn all_places(size: Size) -> usize {
    let (bays, columns) = (size.0, (size.0 + 1).pow(2));
    3 * size.panels() + 2 * (bays - 1) + 2 * columns + 1
}

/// The verdict of a floor that is broken everywhere, and its places.
fn all_of_them(size: Size) -> [Operation; 3] {
    let floor = all_broken(size.0, size.0);
    let (_, verdict) = judge(&floor.bytes());
    let count = all_places(size);
    let right = (0, count as u128);
    let short = NUMBERS * count - 1;
    [
        open(
            "open, broken everywhere",
            &floor,
            (0, verdict as u32),
            size.records(),
        ),
        places("places, all that there are", &floor, ALWAYS_SUFFICE, right),
        places("places, refused 25 by a number", &floor, short, (25, 0)),
    ]
}

pub fn at(size: Size) -> Vec<Operation> {
    let (bare, beams) = (without_beams(size), with_beams(size));
    let lent = |name, floor: &Floor, right| places(name, floor, ALWAYS_SUFFICE, right);
    let thin = panel_too_thin(&beams, size.0 - 1);
    let mut operations = vec![
        lent("places, none, beams everywhere", &beams, (0, 0)),
        lent("places, none, no beams", &bare, (0, 0)),
        lent("places, one, loads (16)", &overloaded(&beams), (0, 1)),
        lent(
            "places, one, last column off (8)",
            &last_column_off(&beams),
            (0, 1),
        ),
        lent("places, one, last panel too thin (64)", &thin, (0, 1)),
        lent(
            "places, refused 5 by the last record",
            &out_of_range(&beams),
            (5, 0),
        ),
    ];
    operations.extend(all_of_them(size));
    operations
}

#[cfg(test)]
mod tests {
    use super::*;
    use crate::SIZES;

    /// Each floor's places are counted as it is built; 12 by 12 bays have as many as there can be.
    #[test]
    fn at_every_size() {
        for size in SIZES {
            assert_eq!(at(size).len(), 9);
        }
        assert_eq!(NUMBERS * all_places(Size(12)), ALWAYS_SUFFICE);
    }
}
