//! The figures of single formulas, in the order of the program.

use super::Figure;
use reference::layout::{Layout, Line};
use reference::moments::{clear_length, static_moment};
use reference::steel::steel;
use reference::stiffness::{alpha, frame_width, rectangle_torsion, torsion, Adjoining};
use reference::strips::{
    column_strip_width, part_between, part_inner_negative, part_outer_negative, span_ratio,
    torsion_ratio,
};
use reference::thickness::{least_thickness, Panel};

fn figure(number: u32, theirs: u32, ours: u128) -> Figure {
    Figure {
        number,
        theirs,
        ours,
    }
}

/// Parts are 4500 to 10000.
fn part(number: u32, theirs: u32, ours: i128) -> Figure {
    figure(number, theirs, ours.unsigned_abs())
}

pub fn figures() -> Vec<Figure> {
    let refused = steel(20_000_000, 1_000, 150, 124, 30, 420).0;
    [
        vec![figure(1, 12, refused)],
        limits(),
        beams(),
        plates(),
        thicknesses(),
        stiffnesses(),
        general(),
        capitals(),
    ]
    .concat()
}

fn beam(outer: bool, width: u128, depth: u128) -> Line {
    Line {
        outer,
        width,
        depth,
    }
}

fn inside(span: u128) -> Adjoining {
    Adjoining::Inside {
        low_span: span,
        high_span: span,
    }
}

fn outer(span: u128, column: u128) -> Adjoining {
    Adjoining::Outer { span, column }
}

/// p/q in ten-thousandths, of the limit "p > 5q or q > 5p".
fn unlikeness(along_x: u128, y: u128, along_y: u128, x: u128) -> u128 {
    10000 * along_x * y.pow(2) / (along_y * x.pow(2))
}

/// Document 000, the limits.
fn limits() -> Vec<Figure> {
    let b1 = alpha(beam(true, 350, 700), frame_width(outer(6_000, 370)), 165);
    let b2 = alpha(beam(false, 350, 700), frame_width(inside(6_000)), 165);
    let b3 = alpha(beam(true, 300, 600), frame_width(outer(7_600, 370)), 165);
    let b4 = alpha(beam(false, 300, 600), frame_width(inside(7_600)), 165);
    let panel = |along_x, along_y| unlikeness(along_x, 6_000, along_y, 7_600);
    vec![
        figure(102, 14_690, unlikeness(100_000, 6_000, 50_000, 7_000)),
        figure(104, 125_700, b1),
        figure(105, 89_000, b2),
        figure(106, 54_000, b3),
        figure(107, 37_900, b4),
        figure(108, 14_400, panel(b1 + b2, b3 + b4)),
        figure(109, 17_600, panel(b1 + b2, b4 + b4)),
        figure(110, 11_900, panel(b2 + b2, b3 + b4)),
        figure(111, 14_600, panel(b2 + b2, b4 + b4)),
    ]
}

/// C of the documents in 1,000 mm⁴, 300 of which are T.
fn thousands(torsion: u128) -> u128 {
    torsion / 300_000
}

/// Document 000, Examples (1) to (3).
fn beams() -> Vec<Figure> {
    let through = rectangle_torsion(300, 435) + rectangle_torsion(735, 165);
    let torsion = torsion(beam(true, 300, 600), 165);
    let b = torsion_ratio(Some(torsion), 6_000, 165);
    let r = span_ratio(6_000, 7_600);
    let strip = column_strip_width(7_600, inside(6_000));
    vec![
        figure(112, 7_230, clear_length(7_600, 375)),
        figure(139, 7_900, r),
        figure(142, 3_159_000, thousands(through)),
        figure(143, 4_195_000, thousands(torsion)),
        figure(144, 9_300, b),
        part(140, 8_130, part_inner_negative(10_000, r)),
        part(141, 8_130, part_between(10_000, r)),
        part(145, 9_304, part_outer_negative(10_000, r, b)),
        figure(146, 3_000, strip),
        figure(147, 3_000, frame_width(inside(6_000)) - strip),
        figure(148, 891, steel(1_221_400, 3_000, 165, 133, 30, 420).1),
    ]
}

/// Document 000, Examples (4) to (6).
fn plates() -> Vec<Figure> {
    let edge = frame_width(outer(7_000, 600));
    let width = frame_width(outer(5_000, 300));
    let strip = column_strip_width(7_000, outer(5_000, 300));
    vec![
        figure(149, 4_700, clear_length(5_000, 300)),
        figure(150, 3_800, edge),
        figure(153, 1_550, column_strip_width(5_000, outer(7_000, 600))),
        figure(155, 31_900, alpha(beam(true, 300, 600), edge, 200)),
        figure(157, 6_400, clear_length(7_000, 600)),
        figure(162, 2_650, width),
        figure(163, 1_400, strip),
        figure(164, 1_250, width - strip),
        figure(165, 4_050, clear_length(4_500, 450)),
        figure(168, 1_089, steel(5_855_000, 3_000, 175, 145, 25, 420).1),
        figure(169, 5_700, clear_length(6_000, 300)),
        figure(172, 2_750, column_strip_width(6_000, inside(5_500))),
        figure(
            174,
            11_275,
            10 * steel(7_062_000, 2_750, 200, 170, 25, 420).1,
        ),
        figure(175, 990, steel(0, 2_750, 200, 170, 25, 420).1),
    ]
}

/// Document 004, inner panels, in thousandths of a mm.
fn thicknesses() -> Vec<Figure> {
    let thickness = |layout, clear_x_span, clear_y_span, alpha_sum| {
        1000 * least_thickness(Panel {
            layout,
            least_outer_alpha: None,
            clear_x_span,
            clear_y_span,
            alpha_sum,
            fy: 420,
        })
    };
    let beams = Layout::Everywhere;
    let none = Layout::NoBeams;
    vec![
        figure(401, 150_118, thickness(beams, 5_800, 5_800, 60_000)),
        figure(402, 146_388, thickness(beams, 5_000, 6_300, 92_000)),
        figure(403, 136_723, thickness(beams, 5_000, 5_500, 68_000)),
        figure(404, 136_364, thickness(none, 4_200, 4_500, 0)),
        figure(405, 178_788, thickness(none, 5_900, 4_200, 0)),
    ]
}

/// Document 004, General Example 1: α, and of each panel p/q and the mean α.
fn stiffnesses() -> Vec<Figure> {
    let b1 = alpha(beam(true, 300, 600), frame_width(outer(8_000, 600)), 180);
    let b3 = alpha(beam(false, 300, 600), frame_width(inside(8_000)), 180);
    let b5 = alpha(beam(true, 300, 700), frame_width(outer(6_000, 600)), 180);
    let b7 = alpha(beam(false, 300, 600), frame_width(inside(6_000)), 180);
    let ratio = |along_x, along_y| unlikeness(along_x, 8_000, along_y, 6_000);
    let mean = |along_x, along_y| (along_x + along_y) / 4;
    vec![
        figure(454, 82_670, b5),
        figure(455, 24_440, b3),
        figure(456, 32_590, b7),
        figure(457, 38_230, b1),
        figure(408, 9_700, ratio(b1 + b3, b5 + b7)),
        figure(458, 44_480, mean(b1 + b3, b5 + b7)),
        figure(409, 7_540, ratio(b3 + b3, b5 + b7)),
        figure(459, 41_040, mean(b3 + b3, b5 + b7)),
        figure(410, 17_100, ratio(b1 + b3, b7 + b7)),
        figure(460, 31_960, mean(b1 + b3, b7 + b7)),
        figure(411, 13_330, ratio(b3 + b3, b7 + b7)),
        figure(461, 28_520, mean(b3 + b3, b7 + b7)),
    ]
}

/// Document 004, General Example 1: torsion, widths and parts.
fn general() -> Vec<Figure> {
    let b5 = torsion(beam(true, 300, 700), 180);
    let b1 = torsion(beam(true, 300, 600), 180);
    let b = torsion_ratio(Some(b5), 8_000, 180);
    let r = span_ratio(8_000, 6_000);
    let width = frame_width(outer(8_000, 600));
    let strip = column_strip_width(6_000, outer(8_000, 600));
    let through = |flange, web| rectangle_torsion(flange, 180) + rectangle_torsion(300, web);
    vec![
        figure(412, 4_353_000, thousands(through(820, 520))),
        figure(413, 5_191_000, thousands(b5)),
        figure(414, 3_258_000, thousands(through(720, 420))),
        figure(415, 4_295_000, thousands(b1)),
        figure(416, 6_930, b),
        figure(417, 7_360, torsion_ratio(Some(b1), 6_000, 180)),
        figure(406, 3_300, frame_width(outer(6_000, 600))),
        figure(418, 4_300, width),
        figure(419, 5_400, clear_length(6_000, 600)),
        figure(450, 1_800, strip),
        figure(451, 2_500, width - strip),
        figure(421, 13_330, r),
        part(422, 9_030, part_outer_negative(10_000, r, b)),
        part(423, 6_500, part_between(10_000, r)),
        part(424, 6_500, part_inner_negative(10_000, r)),
    ]
}

/// Document 004, a flat slab with capitals. Its 15 kN/m² are factored: 12·12500 of 01's 12D + 16L.
fn capitals() -> Vec<Figure> {
    vec![
        figure(452, 372_400, static_moment(12_500, 0, 6_000, 5_754)),
        figure(453, 296_600, static_moment(12_500, 0, 7_000, 4_754)),
    ]
}
