//! Whether a floor is clear: yes; no, by one limit at one place; refused.

use super::{out_of_range, overloaded, Operation, Work};
use crate::floors::{with_beams, without_beams};
use crate::product::Answer;
use crate::size::Size;
use floor::Floor;
use reference::verdict::{judge, REFUSED};

/// `judged` is the refusal and the full verdict that the floor is to have.
fn clear(name: &'static str, floor: &Floor, judged: (u128, u128)) -> Operation {
    let floor = floor.bytes();
    assert_eq!(judge(&floor), judged, "{name}");
    let (refused, verdict) = judged;
    let answer: Answer = (refused as u32, (verdict == 0).into());
    Operation {
        name,
        floor,
        work: Work::Clear,
        answer,
        writes: 0,
    }
}

/// The floor with the spans of one bay each way.
fn with_bay(floor: &Floor, bay: usize, x_span: u32, y_span: u32) -> Floor {
    let mut floor = floor.clone();
    floor.x_spans[bay] = x_span;
    floor.y_spans[bay] = y_span;
    floor
}

/// 2: 7,500 is more than twice 3,740, but not more than twice any other y span, and no other x span is.
fn first_panel_too_long(floor: &Floor) -> Floor {
    with_bay(floor, 0, 7_500, 3_740)
}

/// 32: a stiff beam on x line 0 and a limber one on y line 0; either alone is within five times of the others.
fn first_panel_unbalanced(floor: &Floor) -> Floor {
    let mut floor = floor.clone();
    floor.x_lines[0] = (350, 1_060);
    floor.y_lines[0] = (350, 420);
    floor
}

/// 64: a panel of 8,800 by 8,200 asks for 203, and one with a span of 5,400 to 6,200 for less than 200.
pub fn panel_too_thin(floor: &Floor, bay: usize) -> Floor {
    Floor {
        t: 200,
        ..with_bay(floor, bay, 8_800, 8_200)
    }
}

/// 64: 6620/30 is more than 220. The longer span of a panel decides alone, so that all of x bay 0 is too thin.
fn first_bay_too_thin(floor: &Floor) -> Floor {
    let mut floor = floor.clone();
    floor.x_spans[0] = 7_020;
    floor
}

/// 8: a tenth of its y span is 580.
pub fn last_column_off(floor: &Floor) -> Floor {
    let mut floor = floor.clone();
    floor.offsets.last_mut().expect("a column").1 = 581;
    floor
}

/// 4: the last but one is 5,600.
fn last_neighbours_unlike(floor: &Floor) -> Floor {
    let mut floor = floor.clone();
    *floor.y_spans.last_mut().expect("a bay") = 3_700;
    floor
}

pub fn at(size: Size) -> Vec<Operation> {
    let (bare, beams) = (without_beams(size), with_beams(size));
    let no = |name, floor: Floor, limit| clear(name, &floor, (0, limit));
    let last = size.0 - 1;
    vec![
        clear("clear, yes, beams everywhere", &beams, (0, 0)),
        clear("clear, yes, no beams", &bare, (0, 0)),
        no(
            "clear, no, first panel too long (2)",
            first_panel_too_long(&beams),
            2,
        ),
        no(
            "clear, no, first panel unbalanced (32)",
            first_panel_unbalanced(&beams),
            32,
        ),
        no(
            "clear, no, first panel too thin (64)",
            panel_too_thin(&beams, 0),
            64,
        ),
        no(
            "clear, no, first panel too thin, no beams",
            first_bay_too_thin(&bare),
            64,
        ),
        no(
            "clear, no, last panel too thin",
            panel_too_thin(&beams, last),
            64,
        ),
        no("clear, no, last column off (8)", last_column_off(&beams), 8),
        no("clear, no, loads (16)", overloaded(&beams), 16),
        no(
            "clear, no, neighbours (4)",
            last_neighbours_unlike(&beams),
            4,
        ),
        clear(
            "clear, refused 5 by the last record",
            &out_of_range(&beams),
            (5, REFUSED),
        ),
    ]
}

#[cfg(test)]
mod tests {
    use super::*;
    use crate::SIZES;
    use reference::floor_file::sizes;
    use reference::panel::{
        least_thickness, panels, x_line_alphas, x_spans, y_line_alphas, y_spans,
    };
    use reference::verdict::too_unlike;

    type Panel = (usize, usize);

    fn is_too_long(floor: &[u8], (i, j): Panel) -> bool {
        let (x, y) = (x_spans(floor)[i], y_spans(floor)[j]);
        x.max(y) > 2 * x.min(y)
    }

    fn is_unbalanced(floor: &[u8], (i, j): Panel) -> bool {
        let (x_lines, y_lines) = (x_line_alphas(floor), y_line_alphas(floor));
        let p = (x_lines[j] + x_lines[j + 1]) * y_spans(floor)[j].pow(2);
        let q = (y_lines[i] + y_lines[i + 1]) * x_spans(floor)[i].pow(2);
        too_unlike(p, q)
    }

    fn is_too_thin(floor: &[u8], (i, j): Panel) -> bool {
        sizes(floor).t < least_thickness(floor, i, j)
    }

    fn broken(floor: &Floor, breaks: fn(&[u8], Panel) -> bool) -> Vec<Panel> {
        let floor = floor.bytes();
        let mut broken = panels(&floor);
        broken.retain(|&panel| breaks(&floor, panel));
        broken
    }

    /// The names say at which panel: there, and nowhere before it.
    #[test]
    fn broken_where_the_name_says() {
        for size in SIZES {
            let (bare, beams) = (without_beams(size), with_beams(size));
            let (first, last) = ((0, 0), (size.0 - 1, size.0 - 1));
            let long = broken(&first_panel_too_long(&beams), is_too_long);
            let unbalanced = broken(&first_panel_unbalanced(&beams), is_unbalanced);
            let thin = broken(&panel_too_thin(&beams, 0), is_too_thin);
            assert_eq!([long, unbalanced, thin], [[first]; 3]);
            let thin = broken(&panel_too_thin(&beams, size.0 - 1), is_too_thin);
            assert_eq!(thin, [last]);
            let thin = broken(&first_bay_too_thin(&bare), is_too_thin);
            assert_eq!(thin[0], first);
        }
    }

    /// Each floor is judged as it is built.
    #[test]
    fn at_every_size() {
        for size in SIZES {
            assert_eq!(at(size).len(), 11);
        }
    }
}
