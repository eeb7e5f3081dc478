//! Floors drawn whole, with a slab as thick as their worst panel asks.

use crate::draw::Draw;
use floor::{Floor, NO_BEAM};
use reference::layout::Layout;
use reference::panel::{least_thickness, panels};
use reference::refusals::SUCCESS;
use reference::verdict::judge;

#[derive(Clone, Copy, Debug)]
pub struct Wanted {
    pub nx: usize,
    pub ny: usize,
    pub layout: Layout,
    pub sides: u32,
}

/// Of each side columns, unrestrained or fully restrained.
pub fn any_sides(draw: &mut Draw) -> u32 {
    (0..4).fold(0, |sum, _| 4 * sum + draw.between(0, 2))
}

/// Draws until no limit is broken.
pub fn clear(draw: &mut Draw, wanted: Wanted) -> Floor {
    loop {
        let floor = floor(draw, wanted);
        if judge(&floor.bytes()) == (SUCCESS, 0) {
            return floor;
        }
    }
}

/// One that is not refused, though it may break a limit.
pub fn floor(draw: &mut Draw, wanted: Wanted) -> Floor {
    loop {
        let floor = no_thicker_than_asked(attempt(draw, wanted));
        let floor = Floor {
            t: floor.t + draw.one_of(&[0, 0, 1, 12, 30]),
            ..floor
        };
        let (refused, _) = judge(&floor.bytes());
        if refused == SUCCESS {
            return floor;
        }
    }
}

/// Everything but the slab's thickness, which is more than any panel can ask.
fn attempt(draw: &mut Draw, wanted: Wanted) -> Floor {
    let Wanted { nx, ny, .. } = wanted;
    let middle = draw.between(1_300, 9_500);
    let across = middle * draw.between(70, 135) / 100;
    let (x_spans, y_spans) = (spans(draw, nx, middle), spans(draw, ny, across));
    let t = thick(&x_spans, &y_spans);
    let (x_lines, y_lines) = beams(draw, wanted, t);
    let dead = draw.between(1_000, 30_000);
    Floor {
        t,
        fc: draw.between(20, 60),
        fy: draw.one_of(&[280, 420, 520]),
        dead,
        live: draw.between(0, (2 * dead).min(50_000)),
        cx: column(draw, &x_spans),
        cy: column(draw, &y_spans),
        sides: wanted.sides,
        offsets: offsets(draw, &x_spans, &y_spans),
        x_spans,
        y_spans,
        x_lines,
        y_lines,
    }
}

/// Now and then all alike, else not far from the middle.
fn spans(draw: &mut Draw, bays: usize, middle: u32) -> Vec<u32> {
    let spread = draw.one_of(&[0, 5, 12, 19]) * middle / 100;
    (0..bays)
        .map(|_| draw.between(middle - spread, middle + spread))
        .map(|length| 20 * (length / 20).clamp(50, 600))
        .collect()
}

/// Mostly a small part of the span, now and then up to half of it: "2cx exceeds an x span".
fn column(draw: &mut Draw, spans: &[u32]) -> u32 {
    let shortest = *spans.iter().min().expect("a bay");
    let part = draw.one_of(&[12, 10, 8, 2]);
    10 * draw.between(20, (shortest / part / 10).clamp(20, 150))
}

/// No n is below 28. Ten percent more at a weak edge is less than a clear span over 27.9, which columns of 200 make
/// up for, and of 125 it is 138.
pub fn thick(x_spans: &[u32], y_spans: &[u32]) -> u32 {
    let longest = *x_spans.iter().chain(y_spans).max().expect("a bay");
    longest.div_ceil(28).max(138)
}

/// Width and depth of the beam on each line.
type Beams = Vec<(u32, u32)>;

fn beams(draw: &mut Draw, wanted: Wanted, t: u32) -> (Beams, Beams) {
    // From barely deeper than the slab to many times stiffer than it, in percent of its thickness.
    let depth = draw.one_of(&[100, 115, 150, 200, 300, 400]) * t / 100;
    let width = draw.between(150, 800);
    let mut line = |inner: bool| match (wanted.layout, inner) {
        (Layout::NoBeams, _) | (Layout::OuterLinesOnly, true) => NO_BEAM,
        _ => (
            width + draw.between(0, 200),
            (depth + 1 + draw.between(0, depth / 8)).min(1_500),
        ),
    };
    let mut lines = |bays: usize| (0..=bays).map(|k| line(0 < k && k < bays)).collect();
    (lines(wanted.ny), lines(wanted.nx))
}

/// Up to a tenth of the shorter span adjoining the column, on some floors none.
fn offsets(draw: &mut Draw, x_spans: &[u32], y_spans: &[u32]) -> Vec<(u32, u32)> {
    let percent = draw.one_of(&[0, 10, 60]);
    let tenth = |line: usize, spans: &[u32]| {
        let low = spans[line.saturating_sub(1)];
        let high = spans[line.min(spans.len() - 1)];
        low.min(high) / 10
    };
    let mut offsets = Vec::new();
    for j in 0..=y_spans.len() {
        for i in 0..=x_spans.len() {
            let most = (tenth(i, x_spans), tenth(j, y_spans));
            offsets.push(match draw.percent(percent) {
                true => (draw.between(0, most.0), draw.between(0, most.1)),
                false => (0, 0),
            });
        }
    }
    offsets
}

/// What the panel that asks for most asks for.
pub fn worst_panel(floor: &Floor) -> u32 {
    let bytes = floor.bytes();
    let panels = panels(&bytes).into_iter();
    let thicknesses = panels.map(|(i, j)| least_thickness(&bytes, i, j));
    thicknesses.max().expect("a panel") as u32
}

/// A thinner slab makes its beams stiffer and so, as a rule, no panel ask for more. Where one does, S
/// having come past 8000, the slab is left too thin, and who wants a clear floor draws again.
pub fn no_thicker_than_asked(mut floor: Floor) -> Floor {
    loop {
        let worst = worst_panel(&floor);
        if worst >= floor.t {
            return floor;
        }
        floor.t = worst;
    }
}
