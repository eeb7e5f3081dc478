//! "The verdict"
//!
//! Each limit answers every place where it is broken, none where it is kept. It speaks, as the verdict itself does, of
//! a floor that is not refused.

use crate::floor_file::{records_of_kind, sizes, Sizes};
use crate::layout::{layout, Layout};
use crate::panel::{least_thickness, panels, x_line_alphas, x_spans, y_line_alphas, y_spans};
use crate::refusals::{refusal, SUCCESS};

/// "A refused opening or change gives verdict 255, which no floor earns"
pub const REFUSED: u128 = 255;

#[derive(Clone, Copy, Debug, PartialEq, Eq)]
pub enum Direction {
    X,
    Y,
}

/// 1: "nx or ny below 3."
pub fn directions_of_few_bays(floor: &[u8]) -> Vec<Direction> {
    let Sizes { nx, ny, .. } = sizes(floor);
    let mut directions = Vec::new();
    for (direction, bays) in [(Direction::X, nx), (Direction::Y, ny)] {
        if bays < 3 {
            directions.push(direction);
        }
    }
    directions
}

fn panels_where(floor: &[u8], is_so: impl Fn(usize, usize) -> bool) -> Vec<(usize, usize)> {
    let mut panels = panels(floor);
    panels.retain(|&(i, j)| is_so(i, j));
    panels
}

/// 2: "in a panel, longer span > 2·shorter."
pub fn long_panels(floor: &[u8]) -> Vec<(usize, usize)> {
    let (x_spans, y_spans) = (x_spans(floor), y_spans(floor));
    panels_where(floor, |i, j| {
        let longer = x_spans[i].max(y_spans[j]);
        let shorter = x_spans[i].min(y_spans[j]);
        longer > 2 * shorter
    })
}

/// 4: "for neighbouring spans in a direction, 3(longer − shorter) > longer." The direction, and the lower of the two.
pub fn unlike_neighbours(floor: &[u8]) -> Vec<(Direction, usize)> {
    let mut unlike = Vec::new();
    for (direction, spans) in [
        (Direction::X, x_spans(floor)),
        (Direction::Y, y_spans(floor)),
    ] {
        for (lower, neighbours) in spans.windows(2).enumerate() {
            let longer = neighbours[0].max(neighbours[1]);
            let shorter = neighbours[0].min(neighbours[1]);
            if 3 * (longer - shorter) > longer {
                unlike.push((direction, lower));
            }
        }
    }
    unlike
}

/// The spans adjoining a line, two inside and one on an outer line.
fn spans_adjoining(line: usize, spans_across: &[u128]) -> Vec<u128> {
    let mut adjoining = Vec::new();
    if line > 0 {
        adjoining.push(spans_across[line - 1]);
    }
    if line < spans_across.len() {
        adjoining.push(spans_across[line]);
    }
    adjoining
}

/// 8: "ten times an offset exceeds a span adjoining that column in its direction." The direction, and the column's y
/// line and x line.
pub fn stray_columns(floor: &[u8]) -> Vec<(Direction, usize, usize)> {
    let Sizes { nx, .. } = sizes(floor);
    let (x_spans, y_spans) = (x_spans(floor), y_spans(floor));
    let mut stray = Vec::new();
    for offset in records_of_kind(floor, 9) {
        // "index j(nx+1)+i for column on y line i, x line j"
        let i = (offset.index % (nx + 1)) as usize;
        let j = (offset.index / (nx + 1)) as usize;
        // "size along x, along y"
        let along_x = (Direction::X, offset.a, spans_adjoining(i, &x_spans));
        let along_y = (Direction::Y, offset.b, spans_adjoining(j, &y_spans));
        for (direction, size, adjoining) in [along_x, along_y] {
            if adjoining.iter().any(|&span| 10 * size > span) {
                stray.push((direction, i, j));
            }
        }
    }
    stray
}

/// 16: "L > 2D."
pub fn live_load_is_too_large(floor: &[u8]) -> bool {
    let loads = records_of_kind(floor, 3)[0];
    let (dead, live) = (loads.a, loads.b);
    live > 2 * dead
}

/// "p > 5q or q > 5p"
pub fn too_unlike(p: u128, q: u128) -> bool {
    p > 5 * q || q > 5 * p
}

/// 32: "beams everywhere, and in a panel p > 5q or q > 5p, where p = (sum of α of its two x lines)·Y²,
/// q = (sum of α of its two y lines)·X²."
///
/// X and Y are the panel's whole x span and y span, as l1 and l2 are in ACI 318-14, 8.10.2.7.
pub fn unbalanced_panels(floor: &[u8]) -> Vec<(usize, usize)> {
    if layout(floor) != Some(Layout::Everywhere) {
        return Vec::new();
    }
    let (x_spans, y_spans) = (x_spans(floor), y_spans(floor));
    let (x_lines, y_lines) = (x_line_alphas(floor), y_line_alphas(floor));
    panels_where(floor, |i, j| {
        let p = (x_lines[j] + x_lines[j + 1]) * y_spans[j].pow(2);
        let q = (y_lines[i] + y_lines[i + 1]) * x_spans[i].pow(2);
        too_unlike(p, q)
    })
}

/// 64: "t below some panel's least thickness."
pub fn thin_panels(floor: &[u8]) -> Vec<(usize, usize)> {
    let t = sizes(floor).t;
    panels_where(floor, |i, j| t < least_thickness(floor, i, j))
}

/// "A sum of what is broken": of each limit that is broken in some place.
pub fn verdict(floor: &[u8]) -> u128 {
    let mut sum = 0;
    if !directions_of_few_bays(floor).is_empty() {
        sum += 1;
    }
    if !long_panels(floor).is_empty() {
        sum += 2;
    }
    if !unlike_neighbours(floor).is_empty() {
        sum += 4;
    }
    if !stray_columns(floor).is_empty() {
        sum += 8;
    }
    if live_load_is_too_large(floor) {
        sum += 16;
    }
    if !unbalanced_panels(floor).is_empty() {
        sum += 32;
    }
    if !thin_panels(floor).is_empty() {
        sum += 64;
    }
    sum
}

/// Refusal and verdict where no table is lent, so that 8 never arises.
pub fn judge(floor: &[u8]) -> (u128, u128) {
    match refusal(floor) {
        SUCCESS => (SUCCESS, verdict(floor)),
        refused => (refused, REFUSED),
    }
}

/// Refusal, a space, verdict; for a floor that is not refused then one line per y bay, the least
/// thicknesses of its panels by rising x bay, spaces between.
pub fn judged(floor: &[u8]) -> String {
    let (refused, verdict) = judge(floor);
    let mut text = format!("{refused} {verdict}\n");
    if refused != SUCCESS {
        return text;
    }
    let Sizes { nx, ny, .. } = sizes(floor);
    for j in 0..ny as usize {
        let row: Vec<String> = (0..nx as usize)
            .map(|i| least_thickness(floor, i, j).to_string())
            .collect();
        text += &row.join(" ");
        text += "\n";
    }
    text
}
