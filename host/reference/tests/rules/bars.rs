//! The bars of one strip (02, Five): its area, their spacing, and which of them is taken.

use crate::steel_by_code::queries;
use reference::schedule::{bar_and_spacing, least_area, spacing, Bar, BARS};
use reference::steel::{answer, Query};

const TEN: Bar = BARS[0];

/// "Bars are 10, 12 or 16 mm with areas 79, 113 and 201 mm²."
#[test]
fn three_bars() {
    let listed = BARS.map(|bar| (bar.diameter, bar.area));
    assert_eq!(listed, [(10, 79), (12, 113), (16, 201)]);
}

/// "bar area times width is at least area times spacing": 79·1000 is 790·100, short of 791·100, and short of 789·110 =
/// 86,790.
#[test]
fn equality_is_enough() {
    for (area, expected) in [(789, 100), (790, 100), (791, 90)] {
        assert_eq!(spacing(TEN, 1_000, area, 200), Some(expected));
    }
}

/// "at least 80": 79·80 is 79·80, and short of 80·80 = 6,400 as 79·81 = 6,399 is; 79·82 is 6,478.
#[test]
fn at_least_80() {
    for (width, area, expected) in [
        (80, 79, Some(80)),
        (80, 80, None),
        (81, 80, None),
        (82, 80, Some(80)),
    ] {
        assert_eq!(spacing(TEN, width, area, 200), expected);
    }
}

/// "the largest multiple of 10 mm .. at most 2t", where 79·1000 is enough for 79 at 1,000.
#[test]
fn at_most_twice_the_slab() {
    for (t, expected) in [
        (90, 180),
        (91, 180),
        (94, 180),
        (95, 190),
        (99, 190),
        (100, 200),
        (499, 990),
        (500, 1_000),
    ] {
        assert_eq!(spacing(TEN, 1_000, 79, t), Some(expected), "{t}");
    }
}

/// Both at once: 79·190 is 79·190, so that 190 is the most at t 95 and above, but not at 94.
#[test]
fn equality_at_twice_the_slab() {
    for (t, expected) in [(94, 180), (95, 190), (96, 190), (105, 190)] {
        assert_eq!(spacing(TEN, 190, 79, t), Some(expected), "{t}");
    }
}

/// "The smallest bar that allows a spacing is taken." Over 800 mm at 80 the bars make 790, 1,130 and 2,010 mm². At 791
/// 113·800/791 is 114.2, at 1,131 201·800/1131 is 142.2; at 400 79·800/400 is 158, though a thicker bar would do at 220.
#[test]
fn the_smallest_bar() {
    for (area, expected) in [
        (400, Some((10, 150))),
        (790, Some((10, 80))),
        (791, Some((12, 110))),
        (1_130, Some((12, 80))),
        (1_131, Some((16, 140))),
        (2_010, Some((16, 80))),
        (2_011, None),
    ] {
        assert_eq!(bar_and_spacing(800, area, 200), expected, "{area}");
    }
}

/// For 1 mm² at 80 a bar of 79 is too small, and 113 are enough at 110; for 2 mm² 201 are enough at 100, and for 3 mm²
/// none is at 80.
#[test]
fn a_strip_of_1_mm() {
    let taken = [1, 2, 3].map(|area| bar_and_spacing(1, area, 200));
    assert_eq!(taken, [Some((12, 110)), Some((16, 100)), None]);
}

/// "M 2,195,000, b 1,000, t 150, d 124, fc 30, fy 420: 484; *M 0: 270; M 20,000,000: refusal 12." 124 is t − 26, the
/// depth of an x frame. At d 0, that of a y frame, t − 38 is 112, and 2,195,000 takes the 540 of
/// `steel::depth_by_default`.
#[test]
fn areas_of_01() {
    for (m, d, expected) in [
        (2_195_000, 124, Some(484)),
        (0, 124, Some(270)),
        (20_000_000, 124, None),
        (2_195_000, 0, Some(540)),
        (0, 0, Some(270)),
        (20_000_000, 0, None),
    ] {
        let [b, t, fc, fy] = [1_000, 150, 30, 420];
        assert_eq!(least_area(Query { m, b, t, d, fc, fy }), expected);
    }
}

/// "The area is the steel answer": where every area is tried.
#[test]
fn the_steel_answer() {
    let mut refused = 0;
    for query in queries() {
        let right = match answer(query) {
            (0, area) => Some(area),
            (12, 0) => None,
            other => panic!("{query:?} {other:?}"),
        };
        assert_eq!(least_area(query), right, "{query:?}");
        refused += usize::from(right.is_none());
    }
    assert!(refused > 100, "{refused}");
}
