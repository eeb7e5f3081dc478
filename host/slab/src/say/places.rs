//! The places where a limit is broken, in words with the floor's numbers that break it.

use super::folds::Fold;
use super::numbers::{few_or_range, joined, named, range};
use super::picks::{offsets, picked, picked_from_rows, spans_beside, with_next};
use crate::judge::Accepted;
use floor::Floor;

/// `2 bays along x`
pub fn direction(accepted: &Accepted, fold: &Fold) -> String {
    let bays = fold.way.spans(&accepted.floor).len();
    let plural = if bays == 1 { "" } else { "s" };
    format!("{bays} bay{plural} along {}", fold.way.name())
}

pub fn slender_panels(accepted: &Accepted, fold: &Fold) -> String {
    let how = match fold.count() {
        1 => "of which the longer is more than twice the shorter",
        _ => "in each the longer is more than twice the shorter",
    };
    format!("{}: {}, {how}", panels(fold), sizes(&accepted.floor, fold))
}

/// A run of n pairs of neighbours is n + 1 spans.
pub fn neighbours(accepted: &Accepted, fold: &Fold) -> String {
    let numbers = with_next(fold.along());
    let lengths = picked(fold.way.spans(&accepted.floor), &numbers);
    let which = match fold.count() {
        1 => "which",
        _ => "each two neighbours of which",
    };
    format!(
        "{}: {} mm, {which} differ by more than a third of the longer",
        named(&format!("{} span", fold.way.name()), &numbers),
        joined(&lengths)
    )
}

pub fn columns(accepted: &Accepted, fold: &Fold) -> String {
    let (floor, way) = (&accepted.floor, fold.way.name());
    let spans = fold.way.spans(floor);
    let beside = spans_beside(fold.along(), spans.len());
    format!(
        "{}on {}, {}: {} mm off along {way}, beside {} of {} mm",
        counted(fold, "column"),
        named("y line", &fold.i),
        named("x line", &fold.j),
        range(&offsets(floor, fold)),
        named(&format!("{way} span"), &beside),
        few_or_range(&picked(spans, &beside))
    )
}

pub fn loads(accepted: &Accepted, _: &Fold) -> String {
    let Floor { dead, live, .. } = accepted.floor;
    format!("live load {live} N/m², dead load {dead}")
}

/// The stiffness of the lines is the library's own: the beams that it comes from are shown.
pub fn unequal_panels(accepted: &Accepted, fold: &Fold) -> String {
    let floor = &accepted.floor;
    format!(
        "{}: {}, beams {}, {}",
        panels(fold),
        sizes(floor, fold),
        beams("x line", &floor.x_lines, &with_next(&fold.j)),
        beams("y line", &floor.y_lines, &with_next(&fold.i))
    )
}

pub fn thin_panels(accepted: &Accepted, fold: &Fold) -> String {
    let needed = range(&picked_from_rows(&accepted.least, fold));
    format!(
        "{}: {needed} mm needed, slab {}",
        panels(fold),
        accepted.floor.t
    )
}

/// `panel of x bay 2, y bay 1`, `the 20 panels of x bays 0 to 4, y bays 0 to 3`
fn panels(fold: &Fold) -> String {
    let (x_bays, y_bays) = (named("x bay", &fold.i), named("y bay", &fold.j));
    format!("{}of {x_bays}, {y_bays}", counted(fold, "panel"))
}

fn counted(fold: &Fold, name: &str) -> String {
    match fold.count() {
        1 => format!("{name} "),
        count => format!("the {count} {name}s "),
    }
}

/// `9900 by 4200 mm`, along x by along y.
fn sizes(floor: &Floor, fold: &Fold) -> String {
    let x_spans = range(&picked(&floor.x_spans, &fold.i));
    let y_spans = range(&picked(&floor.y_spans, &fold.j));
    format!("{x_spans} by {y_spans} mm")
}

/// `400 by 700 on x lines 0 and 1`, `400 by 700 and 350 by 650 on x lines 0 and 1`, `350 to 400 by 650 to 700 on x lines 0 to 4`
fn beams(name: &str, lines: &[(u32, u32)], numbers: &[usize]) -> String {
    let beams = picked(lines, numbers);
    let sizes = match beams[..] {
        [(b, h), (other_b, other_h)] if (b, h) != (other_b, other_h) => {
            format!("{b} by {h} and {other_b} by {other_h}")
        }
        _ => {
            let (widths, depths): (Vec<u32>, Vec<u32>) = beams.into_iter().unzip();
            format!("{} by {}", range(&widths), range(&depths))
        }
    };
    format!("{sizes} on {}", named(name, numbers))
}
