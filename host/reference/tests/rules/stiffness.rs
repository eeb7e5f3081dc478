//! "Line stiffness", with "Real beam sections" (02, Two).

use reference::layout::Line;
use reference::stiffness::{
    alpha, flange, frame_width, rectangle_torsion, torsion, twelve_inertias, Adjoining,
};
use std::collections::BTreeSet;

pub fn line(outer: bool, width: u128, depth: u128) -> Line {
    Line {
        outer,
        width,
        depth,
    }
}

pub fn inside(low_span: u128, high_span: u128) -> Adjoining {
    Adjoining::Inside {
        low_span,
        high_span,
    }
}

pub fn outer(span: u128, column: u128) -> Adjoining {
    Adjoining::Outer { span, column }
}

#[test]
fn frame_widths() {
    assert_eq!(frame_width(inside(6_000, 5_000)), 5_500);
    assert_eq!(frame_width(inside(1_020, 1_000)), 1_010);
    assert_eq!(frame_width(outer(6_000, 400)), 3_200);
    assert_eq!(frame_width(outer(1_020, 210)), 615);
}

/// Twelve times I_b of document 001, rounded down: with ȳ = N/D, where N = b·H² + b1·hf² and D is twice
/// the area, it is 4·((b + b1)·N³ + b·(D·H − N)³ − b1·(N − D·hf)³)/D³. b1 is for both flanges inside.
pub fn twelve_inertias_by_001(line: Line, t: u128) -> u128 {
    let [b, h, t] = [line.width, line.depth, t].map(|length| length as i128);
    let b1 = (h - t).min(4 * t) * if line.outer { 1 } else { 2 };
    let n = b * h.pow(2) + b1 * t.pow(2);
    let d = 2 * (b * h + b1 * t);
    let thirds = (b + b1) * n.pow(3) + b * (d * h - n).pow(3) - b1 * (n - d * t).pow(3);
    (4 * thirds).div_euclid(d.pow(3)) as u128
}

/// Document 001's E·I_b over E·I_s, I_s = l2·h³/12 with 01's W for l2, in ten-thousandths.
pub fn alpha_by_001(line: Line, frame_width: u128, t: u128) -> u128 {
    10_000 * twelve_inertias_by_001(line, t) / (frame_width * t.pow(3))
}

/// "Inside 350×700, W 6,000, t 165", which had 89,081 by the factor 2. f is 535 and p 1,070:
/// 120,050,000,000 + 4,806,573,750 + ⌊3·245000·176550·535²/421550⌋, where the last is 88,107,632,442, are
/// 212,964,206,192, and W·t³ is 26,952,750,000.
#[test]
fn alpha_inside() {
    let beam = line(false, 350, 700);
    assert_eq!(twelve_inertias(beam, 165), 212_964_206_192);
    assert_eq!(alpha(beam, 6_000, 165), 79_013);
}

/// f and p are 420: 64,800,000,000 + 2,449,440,000 + ⌊3·180000·75600·420²/255600⌋, where the last is
/// 28,174,309,859, are 95,423,749,859, and W·t³ is 18,662,400,000: 51,131.6.
#[test]
fn alpha_outside() {
    let beam = line(true, 300, 600);
    assert_eq!(twelve_inertias(beam, 180), 95_423_749_859);
    assert_eq!(alpha(beam, 3_200, 180), 51_131);
}

/// "the last term rounded down": it is 3·(150·91)·90/(150·91 + 90) = 268 and 3,180/13,740 outside.
#[test]
fn the_shallowest_and_narrowest_beam() {
    let (web, flange) = (150 * 91 * 91 * 91, 90 * 90 * 90);
    assert_eq!(twelve_inertias(line(true, 150, 91), 90), web + flange + 268);
    // Inside 2·f = 2: 3·13650·180/13830 = 532 and 13,440/13,830.
    assert_eq!(
        twelve_inertias(line(false, 150, 91), 90),
        web + 2 * flange + 532
    );
}

/// Above h = 5t the flange is 4t whatever h is: outside 300 by 1,001 under 200 has f = 800.
/// 300·1001³ + 800·200³ + ⌊3·300300·160000·801²/460300⌋, where the last is 200,918,823,688.
#[test]
fn a_flange_of_4t() {
    let expected = 300 * 1_003_003_001 + 800 * 8_000_000 + 200_918_823_688;
    assert_eq!(twelve_inertias(line(true, 300, 1_001), 200), expected);
}

/// Lines with h − t well below, one below, at, one above and well above 4t, as far as 01 allows such depths.
#[test]
fn sections_of_document_001() {
    let mut seen = BTreeSet::new();
    for t in [90, 91, 125, 200, 299, 300, 301, 375, 500] {
        for h in [
            t + 1,
            t + 2,
            2 * t,
            5 * t - 1,
            5 * t,
            5 * t + 1,
            1_499,
            1_500,
        ] {
            if h > 1_500 {
                continue;
            }
            seen.insert((h - t).cmp(&(4 * t)));
            for b in [150, 151, 287, 600, 999, 1_000] {
                for beam in [line(true, b, h), line(false, b, h)] {
                    let expected = twelve_inertias_by_001(beam, t);
                    assert_eq!(twelve_inertias(beam, t), expected, "{beam:?} {t}");
                    assert_eq!(alpha(beam, 3_210, t), alpha_by_001(beam, 3_210, t));
                }
            }
        }
    }
    assert_eq!(seen.len(), 3);
}

#[test]
fn alpha_is_0_without_a_beam() {
    assert_eq!(alpha(line(false, 0, 0), 6_000, 165), 0);
    assert_eq!(alpha(line(true, 0, 0), 3_200, 180), 0);
}

/// Below, at and above h = 5t, where h − t is 4t.
#[test]
fn flanges() {
    assert_eq!(flange(600, 180), 420);
    assert_eq!(flange(201, 200), 1);
    assert_eq!(flange(999, 200), 799);
    assert_eq!(flange(1_000, 200), 800);
    assert_eq!(flange(1_001, 200), 800);
    assert_eq!(flange(1_500, 200), 800);
}

/// 300³·(100·600 − 63·300) = 27,000,000·41,100 and 10³·(1000 − 630).
#[test]
fn rectangles() {
    assert_eq!(rectangle_torsion(300, 600), 1_109_700_000_000);
    assert_eq!(rectangle_torsion(600, 300), 1_109_700_000_000);
    assert_eq!(rectangle_torsion(10, 10), 370_000);
}

/// "*Outer 300×600, t 180": "T 1,288,509,120,000"
#[test]
fn torsion_with_the_web_through() {
    assert_eq!(torsion(line(true, 300, 600), 180), 1_288_509_120_000);
}

/// A slender beam under a thick slab, f = 1000. The web through gives 150³·140,550 + 500³·68,500 =
/// 9,036,856,250,000, the flange through 150³·90,550 + 500³·83,500.
#[test]
fn torsion_with_the_flange_through() {
    assert_eq!(torsion(line(true, 150, 1_500), 500), 10_743_106_250_000);
}
