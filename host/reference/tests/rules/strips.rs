//! "Moments": the column strip's, the middle strips' and the beam's shares of a section total.

use crate::fraction::{fraction, whole, Fraction};
use crate::stiffness::{inside, line, outer};
use reference::stiffness::{frame_width, torsion};
use reference::strips::{
    beam_ratio, column_strip, column_strip_spread_evenly, column_strip_width, l2, part_between,
    part_inner_negative, part_outer_negative, section, span_ratio, torsion_ratio, Section,
};

/// "Taking the frame width for the share ratio on an outer line is wrong: it is the panel span."
#[test]
fn widths_for_the_ratios() {
    assert_eq!(l2(inside(6_000, 5_020)), 5_510);
    assert_eq!(l2(outer(6_000, 400)), 6_000);
}

/// 3333·5000/6000 = 2777.5
#[test]
fn ratio_a() {
    assert_eq!(beam_ratio(0, 6_000, 6_000), 0);
    assert_eq!(beam_ratio(3_333, 5_000, 6_000), 2_777);
    assert_eq!(beam_ratio(9_999, 6_000, 6_000), 9_999);
    assert_eq!(beam_ratio(10_000, 6_000, 6_000), 10_000);
    assert_eq!(beam_ratio(20_001, 3_000, 6_000), 10_000);
    assert_eq!(beam_ratio(79_013, 6_000, 7_600), 10_000);
}

/// 6000/7600 = 0.78947, and the ends of what limit 2 allows.
#[test]
fn ratio_r() {
    assert_eq!(span_ratio(6_000, 7_600), 7_894);
    assert_eq!(span_ratio(6_000, 3_000), 20_000);
    assert_eq!(span_ratio(3_000, 6_000), 5_000);
}

/// "*Outer 300×600, t 180, l2 6,000": "B 7,364"
#[test]
fn ratio_b_of_01() {
    let torsion = torsion(line(true, 300, 600), 180);
    assert_eq!(torsion_ratio(Some(torsion), 6_000, 180), 7_364);
}

/// l2·t³ = 10⁹, so the greatest B begins at T = 125·10⁹.
#[test]
fn ratio_b_at_its_edges() {
    assert_eq!(torsion_ratio(Some(124_999_999_999), 1_000, 100), 24_999);
    assert_eq!(torsion_ratio(Some(125_000_000_000), 1_000, 100), 25_000);
    assert_eq!(torsion_ratio(Some(130_000_000_000), 1_000, 100), 25_000);
    assert_eq!(torsion_ratio(None, 1_000, 100), 0);
}

/// "*A 10000, R 7894: 8131 between and inner. *R 20000, B 25000: 4500 thrice. *R 5000: 9000 thrice.
/// *A 0: 6000, 7500."
#[test]
fn parts_of_01() {
    assert_eq!(part_between(10_000, 7_894), 8_131);
    assert_eq!(part_inner_negative(10_000, 7_894), 8_131);
    for (r, part) in [(20_000, 4_500), (5_000, 9_000)] {
        assert_eq!(part_between(10_000, r), part);
        assert_eq!(part_inner_negative(10_000, r), part);
        assert_eq!(part_outer_negative(10_000, r, 25_000), part);
    }
    for r in [5_000, 7_894, 10_000, 20_000] {
        assert_eq!(part_between(0, r), 6_000);
        assert_eq!(part_inner_negative(0, r), 7_500);
    }
}

/// The least that can be taken off takes off a whole ten-thousandth. B takes off a tenth of itself.
#[test]
fn floors_toward_minus_infinity() {
    assert_eq!(part_between(1, 15_000), 6_000);
    assert_eq!(part_between(1, 15_001), 5_999);
    assert_eq!(part_inner_negative(1, 10_000), 7_500);
    assert_eq!(part_inner_negative(1, 10_001), 7_499);
    assert_eq!(part_outer_negative(0, 10_000, 0), 10_000);
    assert_eq!(part_outer_negative(0, 10_000, 1), 9_999);
    assert_eq!(part_outer_negative(0, 10_000, 10), 9_999);
    assert_eq!(part_outer_negative(0, 10_000, 11), 9_998);
}

fn on_the_line(x: Fraction, one: (Fraction, Fraction), other: (Fraction, Fraction)) -> Fraction {
    one.1 + (other.1 - one.1) * (x - one.0) / (other.0 - one.0)
}

/// Percentages at l2/l1 0.5, 1 and 2.
type Row = [i128; 3];

/// Between two rows of a table of ACI 318-14, for αl2/l1 = 0 and for αl2/l1 = 1.
fn interpolated([without, with]: [Row; 2], a: Fraction, r: Fraction) -> Fraction {
    let along = |[at_half, at_one, at_two]: Row| {
        let one = (whole(1), whole(at_one));
        if r < whole(1) {
            on_the_line(r, (fraction(1, 2), whole(at_half)), one)
        } else {
            on_the_line(r, one, (whole(2), whole(at_two)))
        }
    };
    on_the_line(a, (whole(0), along(without)), (whole(1), along(with)))
}

/// In ten-thousandths, from percent.
fn part(percent: Fraction) -> i128 {
    (whole(100) * percent).floor()
}

fn grid(low: u128, high: u128, step: usize, more: &[u128]) -> Vec<u128> {
    let steps = (low..=high).step_by(step);
    steps.chain(more.iter().copied()).collect()
}

/// Tables 8.10.5.5, 8.10.5.1 and 8.10.5.2 of ACI 318-14, interpolated as they ask.
#[test]
fn parts_by_the_tables() {
    const BETWEEN: [Row; 2] = [[60, 60, 60], [90, 75, 45]];
    const NEGATIVE: [Row; 2] = [[75, 75, 75], [90, 75, 45]];
    let ratio = |ten_thousandths: u128| fraction(ten_thousandths as i128, 10_000);
    for a in grid(0, 10_000, 613, &[1, 9_999, 10_000]) {
        for r in grid(5_000, 20_000, 947, &[9_999, 10_000, 10_001, 15_001, 20_000]) {
            let between = interpolated(BETWEEN, ratio(a), ratio(r));
            let negative = interpolated(NEGATIVE, ratio(a), ratio(r));
            assert_eq!(part_between(a, r), part(between), "A {a}, R {r}");
            assert_eq!(part_inner_negative(a, r), part(negative), "A {a}, R {r}");
            for b in grid(0, 25_000, 1_531, &[1, 10, 24_999, 25_000]) {
                let by_torsion = [(whole(0), whole(100)), (fraction(5, 2), negative)];
                let outer = on_the_line(ratio(b), by_torsion[0], by_torsion[1]);
                let found = part_outer_negative(a, r, b);
                assert_eq!(found, part(outer), "A {a}, R {r}, B {b}");
                assert!((4_500..=10_000).contains(&found));
            }
        }
    }
}

/// Quarters of 5000 and 4000, of 5000 twice, of 3000 and 4000; on the outer line also half of 400.
#[test]
fn column_strip_widths() {
    assert_eq!(column_strip_width(5_000, inside(6_000, 4_000)), 2_250);
    assert_eq!(column_strip_width(5_000, inside(6_000, 7_000)), 2_500);
    assert_eq!(column_strip_width(5_000, inside(3_000, 4_000)), 1_750);
    assert_eq!(column_strip_width(5_000, outer(6_000, 400)), 1_450);
    assert_eq!(column_strip_width(5_000, outer(4_000, 400)), 1_200);
    assert_eq!(column_strip_width(1_020, outer(1_060, 210)), 360);
}

/// 65·130,111 = 8,457,215, of which 2250/5000 are 3,805,746.75 and 1450/3200 are 3,832,175.5.
#[test]
fn spread_evenly() {
    for (adjoining, column) in [
        (inside(6_000, 4_000), 3_805_746),
        (outer(6_000, 400), 3_832_175),
    ] {
        let (wc, w) = (column_strip_width(5_000, adjoining), frame_width(adjoining));
        assert_eq!(column_strip_spread_evenly(8_457_215, wc, w), column);
    }
}

/// "*Total 38,290,000, part 8131, A 10000: 31,133,599; 7,156,401; 26,463,559; 4,670,040."
#[test]
fn section_of_01() {
    let expected = Section {
        total: 38_290_000,
        column: 31_133_599,
        middle: 7_156_401,
        beam: 26_463_559,
        slab: 4_670_040,
    };
    let column = column_strip(38_290_000, 8_131);
    assert_eq!(section(38_290_000, column, 10_000), expected);
}

/// "Rounding both strips apart loses a unit."
#[test]
fn the_rest_takes_the_lost_unit() {
    let column = column_strip(3, 5_000);
    let section = section(3, column, 5_000);
    let Section {
        middle, beam, slab, ..
    } = section;
    assert_eq!((column, middle, beam, slab), (1, 2, 0, 1));
}

/// 85·7/100 = 5.95, which is 5 before the column strip is multiplied.
#[test]
fn the_beams_share_is_rounded_down_first() {
    assert_eq!(section(10_000_000, 10_000_000, 7).beam, 5_000);
    assert_eq!(section(10_000_000, 10_000_000, 0).beam, 0);
}

#[test]
fn sections_add_up() {
    for total in grid(0, 400_000_000, 1_234_567, &[1, 2, 9_999, 10_001]) {
        for part in (0..=10_000)
            .step_by(97)
            .chain([1, 4_500, 8_131, 9_999, 10_000])
        {
            let column = column_strip(total, part);
            let part = part as u128;
            assert!(10_000 * column <= total * part);
            assert!(10_000 * (column + 1) > total * part);
            for a in [0, 1, 3_333, 9_999, 10_000] {
                let section = section(total, column, a);
                assert_eq!((section.total, section.column), (total, column));
                assert_eq!(section.column + section.middle, total);
                assert_eq!(section.middle + section.beam + section.slab, total);
                // "g = 85·A/100": the beam never has more than 85 of 100 parts of the column strip.
                assert!(100 * section.beam <= 85 * column);
            }
        }
    }
}
