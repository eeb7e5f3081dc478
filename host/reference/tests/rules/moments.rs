//! "Moments": static moments and section totals.

use reference::layout::Layout::{self, Everywhere, NoBeams, OuterLinesOnly};
use reference::moments::{
    clear_length, end_span, section_total, static_moment, EndSpan, INNER_SPAN_BETWEEN,
    INNER_SPAN_ENDS,
};

const LAYOUTS: [Layout; 3] = [Everywhere, NoBeams, OuterLinesOnly];

/// 0.65·l1 decides from where the column takes 0.35·l1: 700 of 2000.
#[test]
fn clear_lengths() {
    assert_eq!(clear_length(6_000, 400), 5_600);
    assert_eq!(clear_length(2_000, 690), 1_310);
    assert_eq!(clear_length(2_000, 700), 1_300);
    assert_eq!(clear_length(2_000, 710), 1_300);
    assert_eq!(clear_length(2_000, 1_000), 1_300);
    assert_eq!(clear_length(1_020, 510), 663);
}

/// "*D 7,000, L 2,500, W 3,800, ln 4,700: Mo 130,111. *2,500, 3,000, 5,000, 5,600: 152,880."
#[test]
fn static_moments_of_01() {
    assert_eq!(static_moment(7_000, 2_500, 3_800, 4_700), 130_111);
    assert_eq!(static_moment(2_500, 3_000, 5_000, 5_600), 152_880);
}

/// The second of them is whole. A unit of dead load adds 12·5000·5600²/80000000000 = 23.52.
#[test]
fn static_moments_are_rounded_up() {
    assert_eq!(static_moment(2_501, 3_000, 5_000, 5_600), 152_904);
    assert_eq!(static_moment(2_499, 3_000, 5_000, 5_600), 152_857);
}

#[test]
fn section_totals() {
    assert_eq!(section_total(35, 130_111), 4_553_885);
    assert_eq!(section_total(0, 130_111), 0);
}

fn row(outer_end: u128, between: u128, inner_end: u128) -> EndSpan {
    EndSpan {
        outer_end,
        between,
        inner_end,
    }
}

#[test]
fn end_spans_with_columns_go_by_the_layout() {
    assert_eq!(end_span(0, Everywhere), row(16, 57, 70));
    assert_eq!(end_span(0, NoBeams), row(26, 52, 70));
    assert_eq!(end_span(0, OuterLinesOnly), row(30, 50, 70));
}

#[test]
fn the_code_of_the_side_decides_first() {
    for layout in LAYOUTS {
        assert_eq!(end_span(1, layout), row(0, 63, 75));
        assert_eq!(end_span(2, layout), row(65, 35, 65));
    }
}

/// "Negatives plus twice the positive make 200·Mo, but 201·Mo in an unrestrained end span."
#[test]
fn negatives_plus_twice_the_positive() {
    let mo = 130_111;
    let sum = |one_end, between, other_end| {
        section_total(one_end, mo) + 2 * section_total(between, mo) + section_total(other_end, mo)
    };
    let inner_span = sum(INNER_SPAN_ENDS, INNER_SPAN_BETWEEN, INNER_SPAN_ENDS);
    assert_eq!(inner_span, 200 * mo);
    for layout in LAYOUTS {
        for (side, expected) in [(0, 200 * mo), (1, 201 * mo), (2, 200 * mo)] {
            let row = end_span(side, layout);
            assert_eq!(sum(row.outer_end, row.between, row.inner_end), expected);
        }
    }
}
