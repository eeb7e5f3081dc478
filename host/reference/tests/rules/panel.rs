//! The panel query, and the least thicknesses of a whole floor.

use crate::hand_made::{self, ONE_BAY, THIN, TWO_BY_ONE};
use crate::verdict::refused;
use floor::{Floor, NO_BEAM};
use reference::panel::{adjoining, panel, x_line_alphas, y_line_alphas};
use reference::stiffness::Adjoining;
use reference::verdict::judged;

#[test]
fn what_adjoins_first_inner_and_last_lines() {
    let spans = [4_000, 5_000, 6_000];
    let outer = |span| Adjoining::Outer { span, column: 300 };
    let inside = |low_span, high_span| Adjoining::Inside {
        low_span,
        high_span,
    };
    assert_eq!(adjoining(0, &spans, 300), outer(4_000));
    assert_eq!(adjoining(1, &spans, 300), inside(4_000, 5_000));
    assert_eq!(adjoining(2, &spans, 300), inside(5_000, 6_000));
    assert_eq!(adjoining(3, &spans, 300), outer(6_000));
    assert_eq!(adjoining(0, &[4_000], 300), outer(4_000));
    assert_eq!(adjoining(1, &[4_000], 300), outer(4_000));
}

/// Beams of twice the slab's depth, so that f is t: over t³ twelve times the inertia is 8b + 200 +
/// 600b/(b + 100) outside and 8b + 400 + 1200b/(b + 200) inside. Of the x lines that is 2,200, 4,400 and
/// 3,050, of the y lines 4,700 and 1,760. Of the x lines W is (4000 + 800)/2 = 2400, (4000 + 5000)/2 =
/// 4500, (5000 + 800)/2 = 2900; of the y lines (6000 + 400)/2 = 3200 twice.
#[test]
fn alphas_by_direction() {
    let mut floor = Floor::clear(1, 2);
    (floor.cx, floor.cy) = (400, 800);
    floor.y_spans = vec![4_000, 5_000];
    floor.x_lines = vec![(200, 400), (400, 400), (300, 400)];
    floor.y_lines = vec![(500, 400), (150, 400)];
    let bytes = floor.bytes();
    assert_eq!(x_line_alphas(&bytes), [9_166, 9_777, 10_517]);
    assert_eq!(y_line_alphas(&bytes), [14_687, 5_500]);
    let bytes = floor.transposed().bytes();
    assert_eq!(x_line_alphas(&bytes), [14_687, 5_500]);
    assert_eq!(y_line_alphas(&bytes), [9_166, 9_777, 10_517]);
}

/// Clear spans are 5600, 4600, 3600 along x and 3700, 4700, 5200, 4700 along y. The longer one is
/// divided by 30 in outer panels and by 33 in the two inner ones: 4700/33 = 142.4, 5200/33 = 157.6.
fn without_beams() -> Floor {
    Floor {
        cx: 400,
        cy: 300,
        x_spans: vec![6_000, 5_000, 4_000],
        y_spans: vec![4_000, 5_000, 5_500, 5_000],
        ..Floor::good(3, 4)
    }
}

const WITHOUT_BEAMS: &str = "0 0
187 154 125
187 143 157
187 158 174
187 157 157
";

const WITHOUT_BEAMS_TRANSPOSED: &str = "0 0
187 187 187 187
154 143 158 157
125 157 174 157
";

/// Beams of twice the slab's depth, clear spans of 5600. Over t³ twelve times the inertia is 8b + 125 +
/// 750b/(2b + 125) outside, over 3,200, and 8b + 250 + 750b/(b + 125) inside, over 6,000: α is 5,233,
/// 3,098, 9,371 on x lines and 13,427, 9,451, 21,477 on y lines. Against p the q of a panel is at most
/// 30,928 to 8,331. S is 31,209 and 39,259 south, 35,347 and 43,397 north, and 40000·5600·1.1 is
/// 158.3 and 154.4, 156.3 and 152.4 times 1440000 + 5(S − 8000). South, where the outer line has 5,233, ten
/// percent more than 159 and 155 are 174.9 and 170.5; north only the inner line is below 8,000.
fn with_beams() -> Floor {
    Floor {
        t: 125,
        x_lines: vec![(160, 250), (150, 250), (320, 250)],
        y_lines: vec![(480, 250), (600, 250), (800, 250)],
        ..Floor::clear(2, 2)
    }
}

const WITH_BEAMS: &str = "0 65
175 171
157 153
";

const WITH_BEAMS_TRANSPOSED: &str = "0 65
175 157
171 153
";

#[test]
fn floors_judged() {
    assert_eq!(judged(&without_beams().bytes()), WITHOUT_BEAMS);
    assert_eq!(
        judged(&without_beams().transposed().bytes()),
        WITHOUT_BEAMS_TRANSPOSED
    );
    assert_eq!(judged(&with_beams().bytes()), WITH_BEAMS);
    assert_eq!(
        judged(&with_beams().transposed().bytes()),
        WITH_BEAMS_TRANSPOSED
    );
}

/// 3600/30 = 120 is below the least of 125; 3800·1.1/45 = 92.9; 6650/36 = 184.7.
#[test]
fn typed_floors_judged() {
    assert_eq!(judged(&hand_made::floor(ONE_BAY)), "0 1\n125\n");
    assert_eq!(judged(&hand_made::floor(THIN)), "0 65\n93\n");
    assert_eq!(judged(&hand_made::floor(TWO_BY_ONE)), "0 65\n185 185\n");
}

/// On an outer line, where W is 3,200, α of the first is 7,999 and of the second 8,000.
const WEAK: (u32, u32) = (901, 279);
const STRONG: (u32, u32) = (967, 273);

/// Bays of 6,000, columns of 400 and a slab of 200: three bays each way, with one beam on the outer lines and
/// one on the inner ones.
fn edged(outer: (u32, u32), inner: (u32, u32)) -> Floor {
    let lines = vec![outer, inner, inner, outer];
    Floor {
        x_lines: lines.clone(),
        y_lines: lines,
        ..Floor::clear(3, 3)
    }
}

/// A line below 8,000 in place of one of the four outer ones: south, north, west, east.
fn weakened(floor: &Floor, edge: usize) -> Floor {
    let mut floor = floor.clone();
    let lines = match edge {
        0 | 1 => &mut floor.x_lines,
        _ => &mut floor.y_lines,
    };
    lines[[0, 3][edge % 2]] = WEAK;
    floor
}

/// Whether panel (x, y) of three bays each way touches that edge.
fn touches(edge: usize, x: u128, y: u128) -> bool {
    [y == 0, y == 2, x == 0, x == 2][edge]
}

/// W is 3,200 outside. 901·279³ + 79·200³ + ⌊3·251379·15800·79²/267179⌋, where the last is 278,329,473, are
/// 20,477,922,212, over 3,200·200³ 0.79992; 967·273³ + 73·200³ + ⌊3·263991·14600·73²/278591⌋, where the last
/// is 221,177,970, are 20,480,163,209, over the same 0.800006. Inside, over 6,000, 300 by 300 has 0.2193.
#[test]
fn alphas_at_the_edge() {
    for (beam, expected) in [(WEAK, 7_999), (STRONG, 8_000)] {
        let floor = edged(beam, (300, 300)).bytes();
        for alphas in [x_line_alphas(&floor), y_line_alphas(&floor)] {
            assert_eq!(alphas, [expected, 2_193, 2_193, expected]);
        }
    }
}

/// "a panel having an outer line with α below 8000": one of a corner's two is enough, and inner lines do not
/// count. S is 20,386 at a corner, 14,579 between two corners and 8,772 inside, one less at a weak line: 01
/// asks for 164.06, 167.3 and 170.7. Ten percent more than 165 and 168 are 181.5 and 184.8.
#[test]
fn a_weak_line_of_a_panel() {
    let strong = edged(STRONG, (300, 300));
    assert_eq!(
        judged(&strong.bytes()),
        "0 0\n165 168 165\n168 171 168\n165 168 165\n"
    );
    for edge in 0..4 {
        let floor = weakened(&strong, edge).bytes();
        for (x, y) in (0..3).flat_map(|x| (0..3).map(move |y| (x, y))) {
            let expected = match (touches(edge, x, y), x == 1, y == 1) {
                (true, false, false) => 182,
                (true, ..) => 185,
                (false, true, true) => 171,
                (false, false, false) => 165,
                (false, ..) => 168,
            };
            assert_eq!(panel(&floor, x, y), (0, expected), "edge {edge}, {x} {y}");
        }
    }
}

/// "an outer panel with such a beam counts as having none": edge beams only, 5600 by 33, 30, 28 in place of
/// 36, 33, 31.
#[test]
fn a_weak_beam_where_the_table_of_n_applies() {
    for (fy, without, with) in [(280, 170, 156), (420, 187, 170), (520, 200, 181)] {
        for edge in 0..4 {
            let strong = edged(STRONG, NO_BEAM);
            let floor = Floor {
                fy,
                ..weakened(&strong, edge)
            };
            for (x, y) in (0..3).flat_map(|x| (0..3).map(move |y| (x, y))) {
                let expected = if touches(edge, x, y) { without } else { with };
                let found = panel(&floor.bytes(), x, y);
                assert_eq!(found, (0, expected), "fy {fy}, edge {edge}, {x} {y}");
            }
        }
    }
}

/// With one bay all four lines are outer. With 8,000 on each of them S is 32,000 and 01 asks for 157.9. The
/// table of n applies with beams everywhere too: 150·201³ + 200³ + 596 over 3,200·200³ is 0.0478, and 5600/30
/// is 186.7.
#[test]
fn weak_edges_of_a_single_bay() {
    for (weak_lines, expected) in [(0, 158), (1, 174), (4, 174)] {
        let mut floor = Floor::clear(1, 1);
        let mut lines = [STRONG; 4];
        lines[..weak_lines].fill(WEAK);
        (floor.x_lines, floor.y_lines) = (lines[..2].to_vec(), lines[2..].to_vec());
        assert_eq!(panel(&floor.bytes(), 0, 0), (0, expected));
        assert_eq!(panel(&floor.transposed().bytes(), 0, 0), (0, expected));
    }
    let shallow = vec![(150, 201); 2];
    let mut floor = Floor::clear(1, 1);
    (floor.x_lines, floor.y_lines) = (shallow.clone(), shallow);
    assert_eq!(x_line_alphas(&floor.bytes()), [478; 2]);
    assert_eq!(panel(&floor.bytes(), 0, 0), (0, 187));
}

/// Bays of 12,000 between columns of 200, fy 520 and weak beams everywhere. At a corner S is 8,534: 11800 times
/// 1.1714/(36 + 5·0.01335) is 383.3, and ten percent more than 384 is 422.4. Elsewhere S is not above 8000, and
/// 11800/28 is 421.4.
#[test]
fn the_thickest_panel() {
    let mut floor = edged((900, 520), (900, 520));
    (floor.t, floor.fy, floor.cx, floor.cy) = (430, 520, 200, 200);
    (floor.x_spans, floor.y_spans) = (vec![12_000; 3], vec![12_000; 3]);
    let alphas = [2_774, 1_493, 1_493, 2_774];
    assert_eq!(x_line_alphas(&floor.bytes()), alphas);
    assert_eq!(panel(&floor.bytes(), 0, 0), (0, 423));
    assert_eq!(panel(&floor.bytes(), 1, 0), (0, 422));
}

/// "for columns, walls and masonry edges alike"
#[test]
fn weak_edges_whatever_the_sides() {
    let weak = weakened(&edged(STRONG, (300, 300)), 0);
    let right = judged(&weak.bytes());
    for sides in [1, 2, 16, 32, 85, 100, 170] {
        let floor = Floor {
            sides,
            ..weak.clone()
        };
        assert_eq!(judged(&floor.bytes()), right, "sides {sides}");
    }
}

/// 5600 by the divisors of each grade: 33, 30, 28 outer and 36, 33, 31 inner.
#[test]
fn grades() {
    for (fy, outer, inner) in [(280, 170, 156), (420, 187, 170), (520, 200, 181)] {
        let mut floor = Floor::clear(3, 3);
        floor.fy = fy;
        assert_eq!(panel(&floor.bytes(), 0, 1), (0, outer));
        assert_eq!(panel(&floor.bytes(), 1, 1), (0, inner));
        assert_eq!(panel(&floor.bytes(), 2, 1), (0, outer));
        assert_eq!(panel(&floor.bytes(), 1, 2), (0, outer));
    }
}

/// "A panel query names an x bay and a y bay, each from 0"
#[test]
fn panels_asked_for() {
    let floor = without_beams().bytes();
    for (y, row) in (0..).zip(WITHOUT_BEAMS.lines().skip(1)) {
        for (x, thickness) in (0..).zip(row.split(' ')) {
            assert_eq!(panel(&floor, x, y), (0, thickness.parse().unwrap()));
        }
    }
}

/// "10": "no such panel". "Refused queries answer 0 mm".
#[test]
fn no_such_panel() {
    const HUGE: [u128; 6] = [256, 1 << 16, u32::MAX as u128, 1 << 32, 1 << 64, u128::MAX];
    let floor = without_beams().bytes();
    assert_eq!(panel(&floor, 2, 3), (0, 157));
    for (x, y) in [(3, 0), (3, 2), (3, 3), (0, 4), (2, 4), (3, 4)] {
        assert_eq!(panel(&floor, x, y), (10, 0), "{x} {y}");
    }
    for huge in HUGE {
        for (x, y) in [(huge, 0), (0, huge), (huge, huge)] {
            assert_eq!(panel(&floor, x, y), (10, 0), "{x} {y}");
        }
    }
    let one_bay = hand_made::floor(ONE_BAY);
    assert_eq!(panel(&one_bay, 0, 0), (0, 125));
    assert_eq!(panel(&one_bay, 1, 0), (10, 0));
    assert_eq!(panel(&one_bay, 0, 1), (10, 0));
    let largest = Floor::clear(12, 12).bytes();
    assert_eq!(panel(&largest, 11, 11), (0, 187));
    assert_eq!(panel(&largest, 10, 10), (0, 170));
    assert_eq!(panel(&largest, 12, 11), (10, 0));
    assert_eq!(panel(&largest, 11, 12), (10, 0));
}

/// "it tries 1 to 7, then 10"
#[test]
fn refused_floors() {
    for (number, floor) in refused() {
        assert_eq!(panel(&floor, 0, 0), (number, 0));
        assert_eq!(panel(&floor, 12, 12), (number, 0));
        assert_eq!(judged(&floor), format!("{number} 255\n"));
    }
    assert_eq!(panel(&[], 0, 0), (1, 0));
    assert_eq!(judged(&[]), "1 255\n");
}
