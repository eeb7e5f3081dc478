//! The places that `check` says, one by one.

use crate::check::{inputs, BROKEN};
use crate::page::{expect_broken, limits};
use crate::run::slab_on;
use crate::unfold::{self, Place};
use cases::floors::Described;
use floor::Floor;
use reference::places::broken_places;
use reference::refusals::{refusal, SUCCESS};

/// Two bays each way where every limit is broken at every place. 3060 is more than twice 1520, the longest y span; 4600 − 3060 is
/// 1540, more than a third of 4600, and 520 more than a third of 1520; every column is more than a tenth of 4600 off along x and
/// of 1520 along y. With beams so shallow no panel asks for less than 125; each has an outer x line whose beam is weak, which
/// makes that 138.
const TWO_BY_TWO: &str = "\
slab 100
concrete 30
steel 420
dead 7200
live 20000
columns 200 200
sides columns
x spans 3060 4600
y spans 1000 1520
x line 0 beam 150 101
x line 1 beam 150 101
x line 2 beam 160 102
y line 0 beam 200 200
y line 1 beam 210 190
y line 2 beam 210 190
column 0 0 offset 461 153
column 1 0 offset 462 154
column 2 0 offset 463 155
column 0 1 offset 464 156
column 1 1 offset 465 157
column 2 1 offset 466 158
column 0 2 offset 467 159
column 1 2 offset 468 160
column 2 2 offset 469 161
";

const ONE_BY_ONE: [(u32, &[&str]); 7] = [
    (1, &["2 bays along x", "2 bays along y"]),
    (
        2,
        &[
            "panel of x bay 0, y bay 0: 3060 by 1000 mm, of which the longer is more than twice the shorter",
            "panel of x bay 1, y bay 0: 4600 by 1000 mm, of which the longer is more than twice the shorter",
            "panel of x bay 0, y bay 1: 3060 by 1520 mm, of which the longer is more than twice the shorter",
            "panel of x bay 1, y bay 1: 4600 by 1520 mm, of which the longer is more than twice the shorter",
        ],
    ),
    (
        4,
        &[
            "x spans 0 and 1: 3060 and 4600 mm, which differ by more than a third of the longer",
            "y spans 0 and 1: 1000 and 1520 mm, which differ by more than a third of the longer",
        ],
    ),
    (
        8,
        &[
            "column on y line 0, x line 0: 461 mm off along x, beside x span 0 of 3060 mm",
            "column on y line 1, x line 0: 462 mm off along x, beside x spans 0 and 1 of 3060 and 4600 mm",
            "column on y line 2, x line 0: 463 mm off along x, beside x span 1 of 4600 mm",
            "column on y line 0, x line 1: 464 mm off along x, beside x span 0 of 3060 mm",
            "column on y line 1, x line 1: 465 mm off along x, beside x spans 0 and 1 of 3060 and 4600 mm",
            "column on y line 2, x line 1: 466 mm off along x, beside x span 1 of 4600 mm",
            "column on y line 0, x line 2: 467 mm off along x, beside x span 0 of 3060 mm",
            "column on y line 1, x line 2: 468 mm off along x, beside x spans 0 and 1 of 3060 and 4600 mm",
            "column on y line 2, x line 2: 469 mm off along x, beside x span 1 of 4600 mm",
            "column on y line 0, x line 0: 153 mm off along y, beside y span 0 of 1000 mm",
            "column on y line 1, x line 0: 154 mm off along y, beside y span 0 of 1000 mm",
            "column on y line 2, x line 0: 155 mm off along y, beside y span 0 of 1000 mm",
            "column on y line 0, x line 1: 156 mm off along y, beside y spans 0 and 1 of 1000 and 1520 mm",
            "column on y line 1, x line 1: 157 mm off along y, beside y spans 0 and 1 of 1000 and 1520 mm",
            "column on y line 2, x line 1: 158 mm off along y, beside y spans 0 and 1 of 1000 and 1520 mm",
            "column on y line 0, x line 2: 159 mm off along y, beside y span 1 of 1520 mm",
            "column on y line 1, x line 2: 160 mm off along y, beside y span 1 of 1520 mm",
            "column on y line 2, x line 2: 161 mm off along y, beside y span 1 of 1520 mm",
        ],
    ),
    (16, &["live load 20000 N/m², dead load 7200"]),
    (
        32,
        &[
            "panel of x bay 0, y bay 0: 3060 by 1000 mm, \
             beams 150 by 101 on x lines 0 and 1, 200 by 200 and 210 by 190 on y lines 0 and 1",
            "panel of x bay 1, y bay 0: 4600 by 1000 mm, \
             beams 150 by 101 on x lines 0 and 1, 210 by 190 on y lines 1 and 2",
            "panel of x bay 0, y bay 1: 3060 by 1520 mm, \
             beams 150 by 101 and 160 by 102 on x lines 1 and 2, 200 by 200 and 210 by 190 on y lines 0 and 1",
            "panel of x bay 1, y bay 1: 4600 by 1520 mm, \
             beams 150 by 101 and 160 by 102 on x lines 1 and 2, 210 by 190 on y lines 1 and 2",
        ],
    ),
    (
        64,
        &[
            "panel of x bay 0, y bay 0: 138 mm needed, slab 100",
            "panel of x bay 1, y bay 0: 138 mm needed, slab 100",
            "panel of x bay 0, y bay 1: 138 mm needed, slab 100",
            "panel of x bay 1, y bay 1: 138 mm needed, slab 100",
        ],
    ),
];

#[test]
fn every_limit_at_every_place() {
    expect_broken(&["--all"], TWO_BY_TWO.as_bytes(), &ONE_BY_ONE);
}

/// Only the columns are more than four.
#[test]
fn four_places_of_a_limit_are_said_one_by_one() {
    let mut right = ONE_BY_ONE;
    right[3].1 = &[
        "the 9 columns on y lines 0 to 2, x lines 0 to 2: 461 to 469 mm off along x, \
         beside x spans 0 and 1 of 3060 and 4600 mm",
        "the 9 columns on y lines 0 to 2, x lines 0 to 2: 153 to 161 mm off along y, \
         beside y spans 0 and 1 of 1000 and 1520 mm",
    ];
    expect_broken(&[], TWO_BY_TWO.as_bytes(), &right);
}

/// Of each limit alone, in the floors of 3 by 3 bays that break it. The slab of 180 is too thin for the eight outer panels, which ask
/// for 5600/30 = 186.7, and not for the inner one.
#[test]
fn the_places_of_each_limit_alone() {
    let said: [&[&str]; 7] = [
        &["2 bays along y"],
        &["the 9 panels of x bays 0 to 2, y bays 0 to 2: 6020 by 3000 mm, \
           in each the longer is more than twice the shorter"],
        &[
            "x spans 0 and 1: 6000 and 3980 mm, which differ by more than a third of the longer",
            "x spans 1 and 2: 3980 and 6000 mm, which differ by more than a third of the longer",
        ],
        &["column on y line 1, x line 1: 601 mm off along y, beside y spans 0 and 1 of 6000 and 6000 mm"],
        &["live load 10001 N/m², dead load 5000"],
        &["the 9 panels of x bays 0 to 2, y bays 0 to 2: 6000 by 6000 mm, \
           beams 1000 by 1500 on x lines 0 to 3, 300 by 400 on y lines 0 to 3"],
        &[
            "the 6 panels of x bays 0 to 2, y bays 0 and 2: 187 mm needed, slab 180",
            "the 2 panels of x bays 0 and 2, y bay 1: 187 mm needed, slab 180",
        ],
    ];
    for ((number, _, spoil), said) in BROKEN.into_iter().zip(said) {
        let mut floor = Floor::clear(3, 3);
        spoil(&mut floor);
        expect_broken(&[], &floor.bytes(), &[(number, said)]);
    }
}

#[test]
fn one_bay() {
    let right: &[&str] = &["1 bay along x", "1 bay along y"];
    expect_broken(&[], &Floor::clear(1, 1).bytes(), &[(1, right)]);
}

/// By the independent implementation; none of a floor that is refused.
fn listed(file: &[u8]) -> Vec<Place> {
    match refusal(file) {
        SUCCESS => broken_places(file)
            .into_iter()
            .map(|place| place.numbers())
            .collect(),
        _ => Vec::new(),
    }
}

fn said(options: &[&str], file: &[u8]) -> Vec<Vec<Place>> {
    let words = [&["check"], options, &["-"]].concat();
    let ran = slab_on(&words, file);
    let limits = limits(ran.words()).into_iter();
    limits
        .flat_map(|(limit, lines)| {
            lines
                .into_iter()
                .map(move |line| unfold::places(limit, &line))
        })
        .collect()
}

/// With `--all` a line for each, in their order; folded or not, each place once.
#[test]
fn every_described_floor() {
    let mut tried = 0;
    for Described { description, bytes } in inputs() {
        let mut right = listed(&bytes);
        let one_by_one: Vec<Vec<Place>> = right.iter().map(|&place| vec![place]).collect();
        assert_eq!(said(&["--all"], &bytes), one_by_one, "{description}");
        let mut folded = said(&[], &bytes).concat();
        folded.sort_unstable();
        right.sort_unstable();
        assert_eq!(folded, right, "{description}");
        tried += usize::from(!right.is_empty());
    }
    assert!(tried > 100, "{tried} floors");
}
