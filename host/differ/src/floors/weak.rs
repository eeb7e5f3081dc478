//! A drawn floor with an outer line just strong enough, and with that line just too weak (02, Three); and which
//! edges a floor has met.

use super::drawn::of_bays;
use crate::tally::BeamSort;
use cases::draw::Draw;
use cases::floors::drawn::worst_panel;
use floor::{Floor, NO_BEAM};
use reference::floor_file::sizes;
use reference::layout::{layout, Layout, Line};
use reference::panel::{
    adjoining, columns, outer_alphas, panel_numbers, panels, x_line_alphas, y_line_alphas, y_spans,
};
use reference::stiffness::{alpha, frame_width};
use reference::thickness::{least_thickness, Panel};
use reference::verdict::thin_panels;
use std::collections::BTreeSet;

/// Width and depth.
type Beam = (u32, u32);

const WIDTHS: std::ops::RangeInclusive<u32> = 150..=1_000;

/// Of some depths, the two beams on an outer x line whose α are nearest to 8000: from it on, and below it.
fn beams_about_8000(draw: &mut Draw, floor: &Floor, line: usize) -> Option<(Beam, Beam)> {
    let bytes = floor.bytes();
    let frame_width = frame_width(adjoining(line, &y_spans(&bytes), columns(&bytes).1));
    let alpha_of = |&(width, depth): &Beam| {
        let line = Line {
            outer: true,
            width: width.into(),
            depth: depth.into(),
        };
        alpha(line, frame_width, floor.t.into())
    };
    let (mut strong, mut weak) = (Vec::new(), Vec::new());
    for _ in 0..30 {
        let depth = draw.between(floor.t + 1, (3 * floor.t).min(1_500));
        let beams: Vec<Beam> = WIDTHS.map(|width| (width, depth)).collect();
        let first_strong = beams.partition_point(|beam| alpha_of(beam) < 8_000);
        strong.extend(beams.get(first_strong));
        weak.extend(beams[..first_strong].last());
    }
    let strong = strong.into_iter().min_by_key(alpha_of)?;
    Some((strong, weak.into_iter().max_by_key(alpha_of)?))
}

fn has_shallow_beams(floor: &Floor) -> bool {
    let mut beams = floor.x_lines.iter().chain(&floor.y_lines);
    beams.any(|&beam| beam != NO_BEAM && beam.1 <= floor.t)
}

/// Strong and weak on one line. Mostly the slab is as thick as the strong one asks, or the weak one, or a mm less
/// than that, if it is found soon: for every thickness the beams are others.
fn pair(draw: &mut Draw, mut floor: Floor) -> Option<(Floor, Floor)> {
    let line = draw.one_of(&[0, floor.x_lines.len() - 1]);
    let (for_the_weak, less) = draw.one_of(&[(false, 0), (true, 0), (true, 1)]);
    for _ in 0..4 {
        let (strong, weak) = beams_about_8000(draw, &floor, line)?;
        let [strong, weak] = [strong, weak].map(|beam| {
            let mut floor = floor.clone();
            floor.x_lines[line] = beam;
            floor
        });
        let asked = worst_panel(if for_the_weak { &weak } else { &strong }) - less;
        if asked == floor.t || draw.percent(20) {
            return Some((strong, weak));
        }
        floor.t = asked;
        if has_shallow_beams(&floor) {
            return None;
        }
    }
    None
}

/// The longest span first, so that corners ask for most.
fn long_corner(mut floor: Floor) -> Floor {
    floor.x_spans.sort_by(|one, other| other.cmp(one));
    floor.offsets.fill((0, 0));
    floor
}

/// Along x or along y.
pub fn edge(draw: &mut Draw) -> (Floor, Floor) {
    const LAYOUTS: [Layout; 3] = [
        Layout::Everywhere,
        Layout::Everywhere,
        Layout::OuterLinesOnly,
    ];
    let (strong, weak) = loop {
        let layout = draw.one_of(&LAYOUTS);
        let bays = (draw.between(3, 4), draw.between(3, 4));
        let mut floor = of_bays(draw, bays, layout);
        if draw.percent(50) {
            floor = long_corner(floor);
        }
        if let Some(pair) = pair(draw, floor) {
            break pair;
        }
    };
    match draw.percent(50) {
        true => (strong.transposed(), weak.transposed()),
        false => (strong, weak),
    }
}

/// Whether 64 is broken, and would not be if every edge were strong.
fn too_thin_by_an_edge(floor: &[u8]) -> bool {
    let strong = |(i, j): (usize, usize)| {
        let panel = panel_numbers(floor, i, j);
        let least_outer_alpha = panel.least_outer_alpha.map(|alpha| alpha.max(8_000));
        least_thickness(Panel {
            least_outer_alpha,
            ..panel
        })
    };
    let t = sizes(floor).t;
    !thin_panels(floor).is_empty()
        && panels(floor)
            .into_iter()
            .map(strong)
            .all(|least| least <= t)
}

/// Of a floor that is not refused.
pub fn sorts(floor: &[u8]) -> BTreeSet<BeamSort> {
    let mut sorts = BTreeSet::new();
    if layout(floor) == Some(Layout::NoBeams) {
        return sorts;
    }
    let (x, y) = (x_line_alphas(floor), y_line_alphas(floor));
    for (i, j) in panels(floor) {
        let outer = outer_alphas(&x, &y, i, j);
        let weak = outer.iter().filter(|alpha| **alpha < 8_000).count();
        if outer.len() == 2 && weak == 1 {
            sorts.insert(BeamSort::CornerHalfWeak);
        }
        sorts.extend(outer.iter().filter_map(|alpha| match alpha {
            7_920..8_000 => Some(BeamSort::EdgeBelow),
            8_000..=8_080 => Some(BeamSort::EdgeFrom),
            _ => None,
        }));
    }
    if too_thin_by_an_edge(floor) {
        sorts.insert(BeamSort::ThinByAnEdge);
    }
    sorts
}
