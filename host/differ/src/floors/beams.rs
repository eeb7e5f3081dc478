//! A drawn floor at an edge of what the α of its beams decide, and just past it; and which of these a floor
//! has met.

use super::drawn::of_bays;
use super::edges::{both, Way};
use crate::tally::BeamSort;
use cases::draw::Draw;
use cases::floors::drawn::thick;
use floor::{Floor, NO_BEAM};
use reference::layout::Layout;
use reference::panel::{panels, x_line_alphas, y_line_alphas};
use reference::verdict::unbalanced_panels;
use std::cmp::Ordering;
use std::collections::BTreeSet;

/// Sums twice, for there are two edges.
const WAYS: [(&str, Way); 4] = [
    ("flange", flange),
    ("sum of α", alpha_sum),
    ("sum of α", alpha_sum),
    ("shallow beams", shallow),
];

/// A floor with beams everywhere at an edge, and just past it, along x or along y.
pub fn edge(draw: &mut Draw) -> (&'static str, Floor, Floor) {
    let (words, way) = draw.one_of(&WAYS);
    let (at, past) = loop {
        let bays = (draw.between(3, 4), draw.between(3, 4));
        let floor = of_bays(draw, bays, Layout::Everywhere);
        if let Some(edge) = way(draw, &floor) {
            break edge;
        }
    };
    match draw.percent(50) {
        true => (words, at.transposed(), past.transposed()),
        false => (words, at, past),
    }
}

/// From a number that passes to one that breaks, by halving: the last that passes and the first that breaks.
pub fn edge_between(
    passing: u32,
    breaking: u32,
    breaks: impl Fn(u32) -> bool,
) -> Option<(u32, u32)> {
    if breaks(passing) || !breaks(breaking) {
        return None;
    }
    let (mut passing, mut breaking) = (passing, breaking);
    while passing.abs_diff(breaking) > 1 {
        let middle = passing.midpoint(breaking);
        match breaks(middle) {
            true => breaking = middle,
            false => passing = middle,
        }
    }
    Some((passing, breaking))
}

fn beams_everywhere(floor: &Floor) -> bool {
    let mut lines = floor.x_lines.iter().chain(&floor.y_lines);
    lines.all(|&beam| beam != NO_BEAM)
}

fn too_unlike(floor: &Floor) -> bool {
    !unbalanced_panels(&floor.bytes()).is_empty()
}

fn set_depth(lines: &mut [(u32, u32)], depth: u32) {
    for beam in lines {
        beam.1 = depth;
    }
}

fn of_depth(floor: &Floor, depth: u32) -> Floor {
    let mut floor = floor.clone();
    set_depth(&mut floor.x_lines, depth);
    set_depth(&mut floor.y_lines, depth);
    floor
}

/// 32: the deepest beam on an x line that breaks nothing.
pub fn stiffness(draw: &mut Draw, floor: &Floor) -> Option<(Floor, Floor)> {
    let line = draw.between(0, floor.x_lines.len() - 1);
    if floor.x_lines[line] == NO_BEAM {
        return None;
    }
    let with_depth = |depth| {
        let mut floor = floor.clone();
        floor.x_lines[line].1 = depth;
        floor
    };
    let held = floor.x_lines[line].1;
    let edge = edge_between(held, 1_500, |depth| too_unlike(&with_depth(depth)));
    edge.map(|(passing, breaking)| (with_depth(passing), with_depth(breaking)))
}

/// "f = min(h − t, 4t)": x lines at h = 5t, beside it or well past it, and the shallowest beams on y lines that
/// do not break 32.
fn flange(draw: &mut Draw, floor: &Floor) -> Option<(Floor, Floor)> {
    let equal = 5 * floor.t;
    if equal >= 1_500 {
        return None;
    }
    let deeper = draw.between(equal + 1, 1_500);
    let depth = draw.one_of(&[equal - 1, equal, equal, equal + 1, deeper, deeper]);
    let with_depth = |of_y_lines| {
        let mut floor = of_depth(floor, depth);
        set_depth(&mut floor.y_lines, of_y_lines);
        floor
    };
    let edge = edge_between(depth, floor.t + 1, |depth| too_unlike(&with_depth(depth)));
    edge.map(|(passing, breaking)| (with_depth(passing), with_depth(breaking)))
}

/// "S the sum of its four line α" of each panel, by x bay and y bay.
fn sums(floor: &[u8]) -> impl Iterator<Item = ((usize, usize), u128)> {
    let (x, y) = (x_line_alphas(floor), y_line_alphas(floor));
    let panels = panels(floor).into_iter();
    panels.map(move |(i, j)| ((i, j), x[j] + x[j + 1] + y[i] + y[i + 1]))
}

/// "S > 80000", "8000 < S": the deepest beams for which a panel's S is not past it, then with them the widest
/// on one line.
fn alpha_sum(draw: &mut Draw, floor: &Floor) -> Option<(Floor, Floor)> {
    let slab = draw.one_of(&[floor.t, thick(&floor.x_spans, &floor.y_spans)]);
    let edge = draw.one_of(&[8_000, 80_000]);
    let i = draw.between(0, floor.x_spans.len() - 1);
    let j = draw.between(0, floor.y_spans.len() - 1);
    let floor = Floor {
        t: slab,
        ..floor.clone()
    };
    let is_past = |floor: &Floor| sums(&floor.bytes()).any(|(at, s)| at == (i, j) && s > edge);
    let depths = edge_between(slab + 1, 1_500, |depth| is_past(&of_depth(&floor, depth)));
    let (at, past) = depths.map(|(at, past)| (of_depth(&floor, at), of_depth(&floor, past)))?;
    let with_width = |width| {
        let mut floor = at.clone();
        floor.x_lines[j].0 = width;
        floor
    };
    let widths = edge_between(at.x_lines[j].0, 1_000, |width| is_past(&with_width(width)));
    match widths {
        Some((last, first)) => Some((with_width(last), with_width(first))),
        None => Some((at, past)),
    }
}

/// "a line has a beam whose depth is not above t": all barely above it, and one of them a mm deeper.
fn shallow(draw: &mut Draw, floor: &Floor) -> Option<(Floor, Floor)> {
    let line = draw.between(0, floor.x_lines.len() - 1);
    let t = thick(&floor.x_spans, &floor.y_spans);
    let at = Floor {
        t,
        ..of_depth(floor, t + draw.between(1, 3))
    };
    both(at, |past| past.x_lines[line].1 += 1)
}

fn of_beam(t: u32, depth: u32) -> BeamSort {
    match (depth - t).cmp(&(4 * t)) {
        _ if depth == t + 1 => BeamSort::Shallow,
        Ordering::Less => BeamSort::FlangeBelow,
        Ordering::Equal => BeamSort::FlangeEqual,
        Ordering::Greater => BeamSort::FlangeAbove,
    }
}

fn of_sum(sum: u128) -> Option<BeamSort> {
    let mut edges = [8_000, 80_000].into_iter();
    let edge = edges.find(|edge| sum.abs_diff(*edge) <= edge / 100)?;
    Some(match sum > edge {
        true => BeamSort::SumPast(edge),
        false => BeamSort::SumAt(edge),
    })
}

/// Of a floor that is not refused.
pub fn sorts(bytes: &[u8]) -> BTreeSet<BeamSort> {
    let floor = Floor::of(bytes).expect("a floor that is taken");
    let beams = floor.x_lines.iter().chain(&floor.y_lines);
    let beams = beams.filter(|beam| **beam != NO_BEAM);
    let mut sorts: BTreeSet<BeamSort> = beams.map(|beam| of_beam(floor.t, beam.1)).collect();
    if beams_everywhere(&floor) {
        sorts.extend(sums(bytes).filter_map(|(_, sum)| of_sum(sum)));
    }
    sorts
}
