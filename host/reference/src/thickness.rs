//! "Least thickness", with "Thin slabs at weak edges" (02, Three).

use crate::layout::Layout;

#[derive(Clone, Copy, Debug, PartialEq, Eq)]
pub struct Panel {
    pub layout: Layout,
    /// The least α of its outer lines; `None` of an inner panel, which has no outer line.
    pub least_outer_alpha: Option<u128>,
    pub clear_x_span: u128,
    pub clear_y_span: u128,
    /// "S the sum of its four line α"
    pub alpha_sum: u128,
    pub fy: u128,
}

/// "clear spans (span − column)"; the 0.65 of the moments' clear length is not for the thickness.
pub fn clear_span(span: u128, column: u128) -> u128 {
    span - column
}

#[derive(Clone, Copy, Debug, PartialEq, Eq)]
pub enum Place {
    OuterWithoutEdgeBeams,
    OuterWithEdgeBeams,
    Inner,
}

/// "a panel having an outer line with α below 8000" (02, Three): one of them is enough.
fn has_weak_edge(panel: Panel) -> bool {
    panel.least_outer_alpha.is_some_and(|alpha| alpha < 8000)
}

/// "Where the table of n applies, an outer panel with such a beam counts as having none." (02, Three)
pub fn place(panel: Panel) -> Place {
    match panel.least_outer_alpha {
        None => Place::Inner,
        Some(_) if panel.layout == Layout::NoBeams || has_weak_edge(panel) => {
            Place::OuterWithoutEdgeBeams
        }
        Some(_) => Place::OuterWithEdgeBeams,
    }
}

/// "with n for outer panel without edge beams, outer with, inner"
pub fn n(fy: u128, place: Place) -> u128 {
    use Place::{Inner, OuterWithEdgeBeams, OuterWithoutEdgeBeams};
    match (fy, place) {
        // "fy 280: 33, 36, 36"
        (280, OuterWithoutEdgeBeams) => 33,
        (280, OuterWithEdgeBeams) => 36,
        (280, Inner) => 36,
        // "fy 420: 30, 33, 33"
        (420, OuterWithoutEdgeBeams) => 30,
        (420, OuterWithEdgeBeams) => 33,
        (420, Inner) => 33,
        // "fy 520: 28, 31, 31"
        (520, OuterWithoutEdgeBeams) => 28,
        (520, OuterWithEdgeBeams) => 31,
        (520, Inner) => 31,
        _ => unreachable!("refusal 5 applies"),
    }
}

fn thick_enough(panel: Panel, t: u128) -> bool {
    let Panel {
        layout,
        clear_x_span,
        clear_y_span,
        alpha_sum: s,
        fy,
        ..
    } = panel;
    // "ln and sn are the panel's longer and shorter clear spans"
    let ln = clear_x_span.max(clear_y_span);
    let sn = clear_x_span.min(clear_y_span);
    if layout == Layout::Everywhere && s > 80000 {
        // "beams everywhere, S > 80000: 1400·t·(36sn + 9ln) ≥ ln·sn·(1120 + fy), and t ≥ 90"
        1400 * t * (36 * sn + 9 * ln) >= ln * sn * (1120 + fy) && t >= 90
    } else if layout == Layout::Everywhere && 8000 < s {
        // "beams everywhere, 8000 < S ≤ 80000: 1400·t·(1440000sn + 5ln(S − 8000)) ≥
        // 40000·ln·sn·(1120 + fy), and t ≥ 125"
        1400 * t * (1440000 * sn + 5 * ln * (s - 8000)) >= 40000 * ln * sn * (1120 + fy) && t >= 125
    } else {
        // "otherwise t·n ≥ ln, t ≥ 125"
        t * n(fy, place(panel)) >= ln && t >= 125
    }
}

/// From 0 up.
fn least_whole(enough: impl Fn(u128) -> bool) -> u128 {
    let mut t = 0;
    while !enough(t) {
        t += 1;
    }
    t
}

/// "Answer the least whole mm t with" (01)
pub fn least_thickness(panel: Panel) -> u128 {
    let answer_of_01 = least_whole(|t| thick_enough(panel, t));
    // "With beams everywhere and S above 8000, a panel having an outer line with α below 8000 needs the
    // least whole t with 10t ≥ 11 times the answer of 01." (02, Three)
    if panel.layout == Layout::Everywhere && panel.alpha_sum > 8000 && has_weak_edge(panel) {
        least_whole(|t| 10 * t >= 11 * answer_of_01)
    } else {
        answer_of_01
    }
}
