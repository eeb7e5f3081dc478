//! The panels of a floor: their spans, the α of their lines, their least thickness.
//!
//! All but the query speak of a floor that is not refused.

use crate::floor_file::{records_of_kind, sizes, Sizes};
use crate::layout::{layout, x_lines, y_lines, Line};
use crate::refusals::{refusal, SUCCESS};
use crate::stiffness::{alpha, frame_width, Adjoining};
use crate::thickness::{self, clear_span, Panel};

/// "5 x span"
pub fn x_spans(floor: &[u8]) -> Vec<u128> {
    let spans = records_of_kind(floor, 5).into_iter();
    spans.map(|span| span.a).collect()
}

/// "6 y span"
pub fn y_spans(floor: &[u8]) -> Vec<u128> {
    let spans = records_of_kind(floor, 6).into_iter();
    spans.map(|span| span.a).collect()
}

/// "4 columns": "cx, cy"
pub fn columns(floor: &[u8]) -> (u128, u128) {
    let columns = records_of_kind(floor, 4)[0];
    (columns.a, columns.b)
}

/// What adjoins a line, by the spans and the column of the direction across it.
pub fn adjoining(line: usize, spans_across: &[u128], column_across: u128) -> Adjoining {
    let last = spans_across.len();
    if line == 0 {
        Adjoining::Outer {
            span: spans_across[0],
            column: column_across,
        }
    } else if line == last {
        Adjoining::Outer {
            span: spans_across[last - 1],
            column: column_across,
        }
    } else {
        Adjoining::Inside {
            low_span: spans_across[line - 1],
            high_span: spans_across[line],
        }
    }
}

fn alphas(lines: &[Line], spans_across: &[u128], column_across: u128, t: u128) -> Vec<u128> {
    let mut alphas = Vec::new();
    for (number, &line) in lines.iter().enumerate() {
        let width = frame_width(adjoining(number, spans_across, column_across));
        alphas.push(alpha(line, width, t));
    }
    alphas
}

/// "An x line runs along x": y spans and cy lie across it.
pub fn x_line_alphas(floor: &[u8]) -> Vec<u128> {
    let (_, cy) = columns(floor);
    alphas(&x_lines(floor), &y_spans(floor), cy, sizes(floor).t)
}

/// A y line runs along y: x spans and cx lie across it.
pub fn y_line_alphas(floor: &[u8]) -> Vec<u128> {
    let (cx, _) = columns(floor);
    alphas(&y_lines(floor), &x_spans(floor), cx, sizes(floor).t)
}

/// The x bay and the y bay of every panel, "each from 0". Panel (i, j) lies between the y lines i and
/// i + 1 and between the x lines j and j + 1.
pub fn panels(floor: &[u8]) -> Vec<(usize, usize)> {
    let Sizes { nx, ny, .. } = sizes(floor);
    let mut panels = Vec::new();
    for j in 0..ny as usize {
        for i in 0..nx as usize {
            panels.push((i, j));
        }
    }
    panels
}

/// The α of the outer lines of panel (i, j), the first and the last of a direction being outer: of x lines, then
/// of y lines.
pub fn outer_alphas(x_lines: &[u128], y_lines: &[u128], i: usize, j: usize) -> Vec<u128> {
    let mut outer = Vec::new();
    for (alphas, bay) in [(x_lines, j), (y_lines, i)] {
        for line in [bay, bay + 1] {
            if line == 0 || line + 1 == alphas.len() {
                outer.push(alphas[line]);
            }
        }
    }
    outer
}

/// What the least thickness of the panel of x bay i and y bay j, which the floor has, is worked out from.
pub fn panel_numbers(floor: &[u8], i: usize, j: usize) -> Panel {
    let (cx, cy) = columns(floor);
    let x_lines = x_line_alphas(floor);
    let y_lines = y_line_alphas(floor);
    Panel {
        layout: layout(floor).expect("refusal 7 applies"),
        least_outer_alpha: outer_alphas(&x_lines, &y_lines, i, j).into_iter().min(),
        clear_x_span: clear_span(x_spans(floor)[i], cx),
        clear_y_span: clear_span(y_spans(floor)[j], cy),
        // "S the sum of its four line α"
        alpha_sum: x_lines[j] + x_lines[j + 1] + y_lines[i] + y_lines[i + 1],
        fy: records_of_kind(floor, 2)[0].b,
    }
}

/// "Least thickness" of that panel.
pub fn least_thickness(floor: &[u8], i: usize, j: usize) -> u128 {
    thickness::least_thickness(panel_numbers(floor, i, j))
}

/// 10: "no such panel"
fn is_no_panel(floor: &[u8], x: u128, y: u128) -> bool {
    let Sizes { nx, ny, .. } = sizes(floor);
    x >= nx || y >= ny
}

/// "A panel query names an x bay and a y bay, each from 0, and answers that panel's least thickness;
/// it tries 1 to 7, then 10." "Refused queries answer 0 mm".
pub fn panel(floor: &[u8], x: u128, y: u128) -> (u128, u128) {
    let refused = refusal(floor);
    if refused != SUCCESS {
        (refused, 0)
    } else if is_no_panel(floor, x, y) {
        (10, 0)
    } else {
        (SUCCESS, least_thickness(floor, x as usize, y as usize))
    }
}
