//! "Line stiffness"

use crate::layout::Line;

/// What adjoins a line across it: lengths of its spans and, on an outer line, of the columns.
#[derive(Clone, Copy, Debug, PartialEq, Eq)]
pub enum Adjoining {
    Inside { low_span: u128, high_span: u128 },
    Outer { span: u128, column: u128 },
}

/// Spans are "a multiple of 20" and columns "multiples of 10", so where 01 takes a half, a quarter or
/// a twentieth of one of them nothing is lost.
pub fn whole_share(length: u128, divisor: u128) -> u128 {
    debug_assert!(length.is_multiple_of(divisor), "{length} / {divisor}");
    length / divisor
}

/// "Frame width W: inside, half of each adjoining span; on an outer line half the span plus half the
/// column across."
pub fn frame_width(adjoining: Adjoining) -> u128 {
    match adjoining {
        Adjoining::Inside {
            low_span,
            high_span,
        } => whole_share(low_span, 2) + whole_share(high_span, 2),
        Adjoining::Outer { span, column } => whole_share(span, 2) + whole_share(column, 2),
    }
}

/// "flange f = min(h − t, 4t)", of the torsion (01) and of the inertia (02, Two).
pub fn flange(depth: u128, t: u128) -> u128 {
    (depth - t).min(4 * t)
}

/// "With p = f outside and 2f inside, twelve times the inertia is b·h³ + p·t³ +
/// 3·(b·h)·(p·t)·(h − t)²/(b·h + p·t), the last term rounded down." (02, Two) For a line that has a beam.
pub fn twelve_inertias(line: Line, t: u128) -> u128 {
    let (b, h) = (line.width, line.depth);
    let f = flange(h, t);
    let p = if line.outer { f } else { 2 * f };
    let (web, flanges) = (b * h, p * t);
    b * h.pow(3) + p * t.pow(3) + 3 * web * flanges * (h - t).pow(2) / (web + flanges)
}

/// "α becomes 10000 times that over W·t³, rounded down." (02, Two)
pub fn alpha(line: Line, frame_width: u128, t: u128) -> u128 {
    // "0 without a beam" (01)
    if !line.has_beam() {
        return 0;
    }
    10000 * twelve_inertias(line, t) / (frame_width * t.pow(3))
}

/// "Each rectangle, x the shorter side, gives x³(100y − 63x)."
pub fn rectangle_torsion(one_side: u128, other_side: u128) -> u128 {
    let x = one_side.min(other_side);
    let y = one_side.max(other_side);
    x.pow(3) * (100 * y - 63 * x)
}

/// "Torsion of an outer beam", for a line that has a beam.
pub fn torsion(line: Line, t: u128) -> u128 {
    debug_assert!(line.outer && line.has_beam());
    let (b, h) = (line.width, line.depth);
    let f = flange(h, t);
    // "T is the larger of (b by h) + (f by t) and (b by h − t) + ((b + f) by t)."
    let web_through = rectangle_torsion(b, h) + rectangle_torsion(f, t);
    let flange_through = rectangle_torsion(b, h - t) + rectangle_torsion(b + f, t);
    web_through.max(flange_through)
}
