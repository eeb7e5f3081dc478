//! "Least thickness", with "Thin slabs at weak edges" (02, Three).

use crate::fraction::{fraction, whole, Fraction};
use reference::layout::Layout::{self, Everywhere, NoBeams, OuterLinesOnly};
use reference::thickness::{clear_span, least_thickness, Panel};
use std::collections::BTreeSet;

/// α of the weakest outer line.
type Edge = Option<u128>;

const INNER: Edge = None;
const WEAK: Edge = Some(7_999);
const STRONG: Edge = Some(8_000);

fn panel(layout: Layout, edge: Edge, clear: (u128, u128), alpha_sum: u128, fy: u128) -> Panel {
    Panel {
        layout,
        least_outer_alpha: edge,
        clear_x_span: clear.0,
        clear_y_span: clear.1,
        alpha_sum,
        fy,
    }
}

/// The same for an inner panel and for an outer one whose edges are strong.
fn with_beams(clear: (u128, u128), alpha_sum: u128, fy: u128) -> u128 {
    let [outer, inner] =
        [STRONG, INNER].map(|edge| least_thickness(panel(Everywhere, edge, clear, alpha_sum, fy)));
    assert_eq!(outer, inner);
    outer
}

/// The clear length of the moments would be 650 for the second.
#[test]
fn clear_spans() {
    assert_eq!(clear_span(6_000, 400), 5_600);
    assert_eq!(clear_span(1_000, 500), 500);
}

/// "*fy 420: 6,300 by 5,000, S 92,000: 147. *5,500 by 5,000, S 68,000: 137."
#[test]
fn figures_of_01() {
    assert_eq!(with_beams((6_300, 5_000), 92_000, 420), 147);
    assert_eq!(with_beams((5_000, 6_300), 92_000, 420), 147);
    assert_eq!(with_beams((5_500, 5_000), 68_000, 420), 137);
    assert_eq!(with_beams((5_000, 5_500), 68_000, 420), 137);
}

/// At S = 80000 both inequalities say the same, here 3000·1.1/45 = 73 1/3, so the minimum tells them
/// apart.
#[test]
fn stiff_beams_begin_above_80000() {
    assert_eq!(with_beams((3_000, 3_000), 80_000, 420), 125);
    assert_eq!(with_beams((3_000, 3_000), 80_001, 420), 90);
}

/// 6000/33 = 181.8. One more of S and it is 6000·1.1/36 = 183 1/3, less 0.0006.
#[test]
fn beams_count_above_8000() {
    assert_eq!(with_beams((6_000, 6_000), 8_000, 420), 182);
    assert_eq!(with_beams((6_000, 6_000), 8_001, 420), 184);
}

/// Lines of beams outside only: 6300/33 = 190.9 however stiff they are.
#[test]
fn stiffness_counts_with_beams_everywhere_only() {
    for edge in [STRONG, INNER] {
        let stiff = panel(OuterLinesOnly, edge, (6_300, 5_000), 92_000, 420);
        assert_eq!(least_thickness(stiff), 191);
    }
}

/// 9240 is 33·280, 30·308 and 28·330, while 9240/36 = 256.7 and 9240/31 = 298.1.
#[test]
fn divisors_by_grade_and_place() {
    for (layout, edge, expected) in [
        (NoBeams, Some(0), [280, 308, 330]),
        (OuterLinesOnly, WEAK, [280, 308, 330]),
        (Everywhere, WEAK, [280, 308, 330]),
        (OuterLinesOnly, STRONG, [257, 280, 299]),
        (Everywhere, STRONG, [257, 280, 299]),
        (NoBeams, INNER, [257, 280, 299]),
        (OuterLinesOnly, INNER, [257, 280, 299]),
        (Everywhere, INNER, [257, 280, 299]),
    ] {
        let thickness = |fy| least_thickness(panel(layout, edge, (9_240, 500), 8_000, fy));
        let found = [280, 420, 520].map(thickness);
        assert_eq!(found, expected, "{layout:?} {edge:?}");
    }
}

/// 33·125 = 4125 and 30·125 = 3750.
#[test]
fn at_least_125_without_beams() {
    for (edge, clear, expected) in [
        (INNER, 500, 125),
        (INNER, 4_125, 125),
        (INNER, 4_126, 126),
        (Some(0), 3_750, 125),
        (Some(0), 3_751, 126),
    ] {
        let panel = panel(NoBeams, edge, (500, clear), 0, 420);
        assert_eq!(least_thickness(panel), expected);
    }
}

/// "an outer line with α below 8000", on both sides of "S above 8000" and of "S > 80000": by the table of n
/// 6000/33 = 181.8 and 6000/30 = 200; at 8,001 184, and 11·184/10 = 202.4; from 80000 on 6000·1.1/45 = 146.7,
/// and 11·147/10 = 161.7.
#[test]
fn weak_edges_by_the_sum_of_alphas() {
    for (alpha_sum, strong, weak) in [
        (8_000, 182, 200),
        (8_001, 184, 203),
        (80_000, 147, 162),
        (80_001, 147, 162),
    ] {
        let square =
            |edge| least_thickness(panel(Everywhere, edge, (6_000, 6_000), alpha_sum, 420));
        assert_eq!(square(STRONG), strong, "S {alpha_sum}");
        assert_eq!(square(WEAK), weak, "S {alpha_sum}");
        assert_eq!(square(Some(1)), weak, "S {alpha_sum}");
        assert_eq!(square(INNER), strong, "S {alpha_sum}");
    }
}

/// "11 times the answer of 01", whose minimums come first: 90 becomes 99 and 125 becomes 137.5, as 1.1 times
/// the 73.3 that these spans ask for would not.
#[test]
fn weak_edges_and_the_minimums() {
    for (alpha_sum, expected) in [(8_001, 138), (80_000, 138), (80_001, 99)] {
        let small = panel(Everywhere, WEAK, (3_000, 3_000), alpha_sum, 420);
        assert_eq!(least_thickness(small), expected, "S {alpha_sum}");
    }
    let by_the_table = panel(Everywhere, WEAK, (3_000, 3_000), 8_000, 420);
    assert_eq!(least_thickness(by_the_table), 125);
}

/// "the least whole t with 10t ≥ 11 times the answer of 01": 1.1/45 of these is 139.8, 140.07, 149.8 and
/// 150.09, so that 01 answers 140, 141, 150 and 151. Ten percent more is 154, 155.1, 165 and 166.1; of
/// 140.07 and 150.09 themselves it would be 154.07 and 165.1.
#[test]
fn ten_percent_of_the_whole_answer_rounded_up() {
    for (clear, expected) in [(5_720, 154), (5_730, 156), (6_130, 165), (6_140, 167)] {
        let weak = panel(Everywhere, WEAK, (clear, clear), 90_000, 420);
        assert_eq!(least_thickness(weak), expected, "{clear}");
    }
}

/// 11,800 clear with fy 520 and S barely above 8000: 11800·(0.8 + 520/1400)/36 = 383.97 less a little, which
/// makes 384 into 422.4. By the table of n it is 11800/28 = 421.4.
#[test]
fn the_thickest_of_all() {
    let long = |alpha_sum| panel(Everywhere, WEAK, (11_800, 11_800), alpha_sum, 520);
    assert_eq!(least_thickness(long(8_001)), 423);
    assert_eq!(least_thickness(long(8_000)), 422);
}

fn is_weak(panel: Panel) -> bool {
    let edge = panel.least_outer_alpha;
    edge.is_some_and(|alpha| fraction(alpha as i128, 10_000) < fraction(8, 10))
}

/// Which case of 01 a panel falls under, its minimum, and what else t has to reach by ACI 318-14,
/// tables 8.3.1.1 and 8.3.1.2: ln(0.8 + fy/1400)/(36 + 9β) or ln(0.8 + fy/1400)/(36 + 5β(αfm − 0.2)),
/// where β = ln/sn and αfm is the mean of the four α; without inner beams ln/n. By 8.3.1.2.1 an edge beam
/// counts from αf 0.80 on, or there is ten percent more.
fn bounds(panel: Panel) -> (u32, Fraction, Fraction) {
    let weak = is_weak(panel);
    let clear = [panel.clear_x_span as i128, panel.clear_y_span as i128];
    let ln = whole(clear[0].max(clear[1]));
    let beta = ln / whole(clear[0].min(clear[1]));
    let alpha_mean = fraction(panel.alpha_sum as i128, 4 * 10_000);
    let steel = fraction(8, 10) + fraction(panel.fy as i128, 1_400);
    if panel.layout == Everywhere && alpha_mean > whole(2) {
        let divisor = whole(36) + whole(9) * beta;
        (1, whole(90), ln * steel / divisor)
    } else if panel.layout == Everywhere && alpha_mean > fraction(2, 10) {
        let divisor = whole(36) + whole(5) * beta * (alpha_mean - fraction(2, 10));
        (2, whole(125), ln * steel / divisor)
    } else {
        let without = panel.least_outer_alpha.is_some() && panel.layout == NoBeams;
        let divisor = match panel.fy {
            280 => 36,
            420 => 33,
            _ => 31,
        } - if without || weak { 3 } else { 0 };
        (3, whole(125), ln / whole(divisor))
    }
}

/// Of every edge with the layouts that it goes with.
const EDGES: [(Layout, Edge); 11] = [
    (Everywhere, INNER),
    (Everywhere, Some(150)),
    (Everywhere, WEAK),
    (Everywhere, STRONG),
    (Everywhere, Some(90_000)),
    (OuterLinesOnly, INNER),
    (OuterLinesOnly, Some(150)),
    (OuterLinesOnly, WEAK),
    (OuterLinesOnly, STRONG),
    (NoBeams, INNER),
    (NoBeams, Some(0)),
];

fn panels() -> Vec<Panel> {
    const CLEAR: [u128; 7] = [500, 1_830, 3_070, 4_870, 5_000, 6_310, 11_800];
    const ALPHA_SUMS: [u128; 8] = [0, 8_000, 8_001, 20_003, 68_000, 80_000, 80_001, 1_000_000];
    let mut panels = Vec::new();
    for (layout, edge) in EDGES {
        for clear in CLEAR.iter().flat_map(|&x| CLEAR.map(|y| (x, y))) {
            for alpha_sum in ALPHA_SUMS {
                let of_grade = |fy| panel(layout, edge, clear, alpha_sum, fy);
                panels.extend([280, 420, 520].map(of_grade));
            }
        }
    }
    panels
}

/// The answer of 01 is the least whole number that is not below either bound.
fn by_the_code(panel: Panel) -> i128 {
    let rounded_up = |number: Fraction| -(whole(-1) * number).floor();
    let (case, minimum, required) = bounds(panel);
    let answer_of_01 = rounded_up(minimum).max(rounded_up(required));
    match is_weak(panel) && case < 3 {
        true => rounded_up(fraction(11, 10) * whole(answer_of_01)),
        false => answer_of_01,
    }
}

#[test]
fn least_by_the_code() {
    let mut seen = BTreeSet::new();
    for panel in panels() {
        let (case, minimum, required) = bounds(panel);
        let least = least_thickness(panel) as i128;
        assert_eq!(least, by_the_code(panel), "{panel:?}");
        seen.insert((case, required > minimum, is_weak(panel)));
    }
    // Each case decided by each bound, at a weak edge and not.
    assert_eq!(seen.len(), 3 * 2 * 2, "{seen:?}");
}
