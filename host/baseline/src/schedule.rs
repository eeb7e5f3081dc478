//! "Bar schedule." (02, Five), at the depths of 02, Six: each strip's bounds are worked out once for its three sections.

use crate::floor::{Floor, MOST_RECORDS, X, Y};
use crate::frames::{self, Spans};
use crate::judge::Layout;
use crate::lines::{Across, Stiffness};
use crate::steel::{default_depth, Section};

/// "record number in the table, section .., strip .., width, moment, area, bar diameter, spacing"
pub type Entry = [u32; 8];

/// "Every section of every span appears once for each strip"
pub fn count(floor: &Floor) -> usize {
    6 * floor.records()
}

/// "eight 32-bit numbers little-endian"
pub fn write(entries: &[Entry], lent: &mut [[u8; 32]]) {
    for (entry, place) in entries.iter().zip(lent) {
        for (number, bytes) in entry.iter().zip(place.as_chunks_mut().0) {
            *bytes = number.to_le_bytes();
        }
    }
}

/// `None` is 17: "a strip width of 0 or less, no steel area that fits, or no bar that allows a spacing".
///
/// On the heap, since nothing is written before the last of them is there, and fixed arrays would be cleared whole.
pub fn entries(floor: &Floor, layout: Layout, stiffness: &Stiffness) -> Option<Vec<Entry>> {
    let mut table = [[0; 16]; MOST_RECORDS];
    let table = &mut table[..floor.records()];
    frames::fill(table, floor, layout, stiffness, Spans::All);
    let mut records = (0..).zip(&*table);
    let mut entries = Vec::with_capacity(count(floor));
    for way in [X, Y] {
        let slab = Slab::of(floor, way);
        for (line, beam) in floor.beams(way).iter().enumerate() {
            let across = Across::of(floor, way, line);
            for (&l1, (record, numbers)) in floor.spans(way).iter().zip(&mut records) {
                let strips = strips(slab, across, l1, beam.width)?;
                add(&mut entries, record, numbers, &strips)?;
            }
        }
    }
    Some(entries)
}

/// What the strips of a direction have in common: thickness, depth of their bars, concrete and steel.
#[derive(Clone, Copy)]
struct Slab {
    t: u64,
    depth: u64,
    fc: u64,
    fy: u64,
}

impl Slab {
    /// "Callers that meant the first layer pass t − 26 themselves. In the schedule these are the x frames .. y frames
    /// keep 0" (02, Six)
    fn of(floor: &Floor, way: usize) -> Slab {
        let [t, fc, fy] = [floor.t, floor.fc, floor.fy].map(u64::from);
        let depth = match way {
            X => t - 26,
            _ => default_depth(t),
        };
        Slab { t, depth, fc, fy }
    }
}

/// A strip of a span, whatever its moment.
struct Strip {
    width: u32,
    twice_t: u32,
    section: Section,
}

impl Strip {
    #[inline]
    fn of(slab: Slab, width: u32) -> Strip {
        let Slab { t, depth, fc, fy } = slab;
        Strip {
            width,
            twice_t: 2 * t as u32,
            section: Section::of(width.into(), t, depth, fc, fy),
        }
    }

    /// Area, bar diameter and spacing. "The smallest bar that allows a spacing" is the first that goes at 80, the least
    /// there is; 2t is never less.
    #[inline]
    fn barred(&self, moment: u32) -> Option<[u32; 3]> {
        let area = self.section.area(moment.into())?;
        let at_80 = 80 * area;
        let (diameter, bar) = match self.width {
            width if 79 * width >= at_80 => (10, 79 * width),
            width if 113 * width >= at_80 => (12, 113 * width),
            width if 201 * width >= at_80 => (16, 201 * width),
            _ => return None,
        };
        let most = (bar / area).min(self.twice_t);
        Some([area, diameter, most / 10 * 10])
    }
}

/// Column and middle strip. "Column strip width is wc, less the beam's width on an inside line, less half of it,
/// rounded up, on an outer line; middle strip width is W less wc."
#[inline]
fn strips(slab: Slab, across: Across, l1: u32, beam: u32) -> Option<[Strip; 2]> {
    let wc = across.four_strips(l1) / 4;
    let taken = match across.is_outer() {
        true => beam.div_ceil(2),
        false => beam,
    };
    let column = wc.checked_sub(taken).filter(|&width| width > 0)?;
    // At least a quarter of the spans beside the line.
    let middle = across.twice_width() / 2 - wc;
    Some([Strip::of(slab, column), Strip::of(slab, middle)])
}

/// "The moment is the slab part for the column strip and the middle part for the other": of total, column, middle, beam
/// and slab.
#[inline]
fn add(
    entries: &mut Vec<Entry>,
    record: u32,
    numbers: &[u32; 16],
    strips: &[Strip; 2],
) -> Option<()> {
    for (section, parts) in (0..).zip(numbers[1..].as_chunks::<5>().0) {
        for (strip, moment) in [(0, parts[4]), (1, parts[2])] {
            let barred = &strips[strip as usize];
            let [area, diameter, spacing] = barred.barred(moment)?;
            entries.push([
                record,
                section,
                strip,
                barred.width,
                moment,
                area,
                diameter,
                spacing,
            ]);
        }
    }
    Some(())
}
