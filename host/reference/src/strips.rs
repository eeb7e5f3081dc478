//! "Moments": the column strip's, the middle strips' and the beam's shares of a section total.

use crate::stiffness::{whole_share, Adjoining};

/// "l2 is the mean of adjoining spans inside and the whole panel span on an outer line."
pub fn l2(adjoining: Adjoining) -> u128 {
    match adjoining {
        Adjoining::Inside {
            low_span,
            high_span,
        } => whole_share(low_span + high_span, 2),
        Adjoining::Outer { span, .. } => span,
    }
}

/// "Rounded down: A = min(10000, α·l2/l1)"
pub fn beam_ratio(alpha: u128, l2: u128, l1: u128) -> u128 {
    (alpha * l2 / l1).min(10000)
}

/// "Rounded down:" "R = 10000·l2/l1"
pub fn span_ratio(l2: u128, l1: u128) -> u128 {
    10000 * l2 / l1
}

/// "Rounded down:" "B = min(25000, 200·T/(l2·t³)) with T of the outer beam across that end, 0 without
/// one."
pub fn torsion_ratio(torsion_of_beam_across: Option<u128>, l2: u128, t: u128) -> u128 {
    match torsion_of_beam_across {
        Some(torsion) => (200 * torsion / (l2 * t.pow(3))).min(25000),
        None => 0,
    }
}

/// "floors toward minus infinity"
fn floor(dividend: i128, divisor: i128) -> i128 {
    debug_assert!(divisor > 0);
    dividend.div_euclid(divisor)
}

/// "between: 6000 + floor(3·A·(15000 − R)/100000)"
pub fn part_between(a: u128, r: u128) -> i128 {
    let (a, r) = (a as i128, r as i128);
    6000 + floor(3 * a * (15000 - r), 100000)
}

/// "inner negative: 7500 + floor(3·A·(10000 − R)/100000)"
pub fn part_inner_negative(a: u128, r: u128) -> i128 {
    let (a, r) = (a as i128, r as i128);
    7500 + floor(3 * a * (10000 - r), 100000)
}

/// "outer negative: 10000 + floor(B·(12·A·(10000 − R) − 1000000000)/10000000000)"
pub fn part_outer_negative(a: u128, r: u128, b: u128) -> i128 {
    let (a, r, b) = (a as i128, r as i128, b as i128);
    10000 + floor(b * (12 * a * (10000 - r) - 1000000000), 10000000000)
}

/// "Column strip = total·part/10000 down"
pub fn column_strip(total: u128, part: i128) -> u128 {
    // "in a panel, longer span > 2·shorter" is broken where R is not 5000 to 20000, and within these
    // a part is 4500 to 10000.
    assert!((0..=10000).contains(&part), "no table for a broken limit");
    total * part as u128 / 10000
}

/// "wc is, on each side of the line, a quarter of min(l1, span on that side); past an outer line, half
/// the column." The column is its size across the frame.
pub fn column_strip_width(l1: u128, adjoining: Adjoining) -> u128 {
    let quarter = |span: u128| whole_share(l1.min(span), 4);
    match adjoining {
        Adjoining::Inside {
            low_span,
            high_span,
        } => quarter(low_span) + quarter(high_span),
        Adjoining::Outer { span, column } => quarter(span) + whole_share(column, 2),
    }
}

/// "On a fully restrained side the outer negative spreads evenly instead: column strip = total·wc/W
/// rounded down."
pub fn column_strip_spread_evenly(
    total: u128,
    column_strip_width: u128,
    frame_width: u128,
) -> u128 {
    total * column_strip_width / frame_width
}

/// "each as total, column, middle, beam, slab"
#[derive(Clone, Copy, Debug, PartialEq, Eq)]
pub struct Section {
    pub total: u128,
    pub column: u128,
    pub middle: u128,
    pub beam: u128,
    pub slab: u128,
}

/// `column` is the column strip, by its part or spread evenly: the beam's share comes from A in both.
pub fn section(total: u128, column: u128, a: u128) -> Section {
    // "g = 85·A/100 down"
    let g = 85 * a / 100;
    // "Beam = column·g/10000 down"
    let beam = column * g / 10000;
    Section {
        total,
        column,
        // "middle = the rest"
        middle: total - column,
        beam,
        // "slab = the rest"
        slab: column - beam,
    }
}
