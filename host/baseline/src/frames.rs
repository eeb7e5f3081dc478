//! The table: a record for each span of each frame.

use crate::floor::{Floor, X, Y};
use crate::judge::Layout;
use crate::lines::{torsion, Across, Stiffness};
use crate::strips::{End, Percents, Span};
use std::ops::Range;

/// The spans that are written.
#[derive(Clone, Copy)]
pub enum Spans {
    All,
    None,
    /// "x span i: span i of every x line, all of y lines i and i+1; y likewise."
    Bay {
        way: usize,
        bay: usize,
    },
    /// "Beam on x line j: that line; for j = 0 the first span of every y line, for j = ny the last; y
    /// likewise."
    Line {
        way: usize,
        line: usize,
    },
}

impl Spans {
    /// Those of one line.
    pub fn of(self, floor: &Floor, way: usize, line: usize) -> Range<usize> {
        let bays = floor.bays[way];
        match self {
            Spans::All => 0..bays,
            Spans::None => 0..0,
            Spans::Bay { way: named, bay } if named == way => bay..bay + 1,
            Spans::Bay { bay, .. } if line == bay || line == bay + 1 => 0..bays,
            Spans::Bay { .. } => 0..0,
            Spans::Line {
                way: named,
                line: of,
            } if named == way => 0..if of == line { bays } else { 0 },
            Spans::Line { line: 0, .. } => 0..1,
            Spans::Line { line: of, .. } if of == bays => bays - 1..bays,
            Spans::Line { .. } => 0..0,
        }
    }
}

/// "x frames come first (line j, span i at j·nx + i), then y frames ((ny+1)·nx + i·ny + j)."
pub fn fill(
    table: &mut [[u32; 16]],
    floor: &Floor,
    layout: Layout,
    stiffness: &Stiffness,
    spans: Spans,
) {
    let (x_table, y_table) = table.split_at_mut(floor.lines(X) * floor.bays[X]);
    for (way, table) in [(X, x_table), (Y, y_table)] {
        let frames = Frames::of(floor, layout, way);
        for (line, records) in table.chunks_exact_mut(floor.bays[way]).enumerate() {
            let named = spans.of(floor, way, line);
            if !named.is_empty() {
                frames.fill_line(records, line, stiffness.0[way][line], named);
            }
        }
    }
}

/// What the frames of a direction share.
struct Frames<'a> {
    floor: &'a Floor,
    way: usize,
    load: u64,
    sides: [u32; 2],
    /// T of the outer beams across both ends.
    torsions: [u64; 2],
    /// Of the first span and of the last.
    end_percents: [Percents; 2],
}

impl Frames<'_> {
    fn of(floor: &Floor, layout: Layout, way: usize) -> Frames<'_> {
        let across = floor.beams(1 - way);
        let sides = floor.sides(way);
        let [low, high] = sides.map(|side| end_span(side, layout));
        Frames {
            floor,
            way,
            load: 12 * u64::from(floor.dead) + 16 * u64::from(floor.live),
            sides,
            torsions: [across[0], across[across.len() - 1]]
                .map(|beam| torsion(beam, floor.t.into())),
            end_percents: [low, [high[2], high[1], high[0]]],
        }
    }

    fn fill_line(&self, records: &mut [[u32; 16]], line: usize, alpha: u64, named: Range<usize>) {
        let across = Across::of(self.floor, self.way, line);
        let (l2, twice_width) = (across.l2(), across.twice_width());
        let cubed = u64::from(l2) * u64::from(self.floor.t).pow(3);
        let outer = [0, 1].map(|end| End::Outer {
            side: self.sides[end],
            // "B = min(25000, 200·T/(l2·t³))"
            b: (200 * self.torsions[end] / cubed).min(25_000),
        });
        let last = records.len() - 1;
        for span in named {
            let l1 = self.floor.spans(self.way)[span];
            let (percents, ends) = match span {
                0 => (self.end_percents[0], [outer[0], End::Inner]),
                _ if span == last => (self.end_percents[1], [End::Inner, outer[1]]),
                _ => ([65, 35, 65], [End::Inner; 2]),
            };
            Span {
                load: self.load * u64::from(twice_width),
                l1,
                column: self.floor.column[self.way],
                l2,
                alpha,
                twice_width,
                four_strips: across.four_strips(l1),
                percents,
                ends,
            }
            .write(&mut records[span]);
        }
    }
}

/// Outer end, between, inner end. "The side's own code decides first, then the layout."
fn end_span(side: u32, layout: Layout) -> Percents {
    match (side, layout) {
        (1, _) => [0, 63, 75],
        (2, _) => [65, 35, 65],
        (_, Layout::Everywhere) => [16, 57, 70],
        (_, Layout::NoBeams) => [26, 52, 70],
        (_, Layout::OuterLines) => [30, 50, 70],
    }
}
