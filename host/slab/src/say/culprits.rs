//! What a refusal is about, by the library's answers: it is asked about a floor of the same bays with nothing amiss but the one record in question.
//!
//! Checks 5 to 7 come in this order, and each tells of one record, of a span with the columns, or of the beams with the slab, whatever the rest.

use super::records;
use crate::judge::refusal;
use floor::{Floor, Record, NO_BEAM, RECORD_BYTES};

/// Accepted, whatever the bays: the longest spans and the smallest columns, and no beams.
fn mild(floor: &Floor) -> Floor {
    Floor {
        t: 90,
        fc: 20,
        fy: 280,
        dead: 1_000,
        live: 0,
        cx: 200,
        cy: 200,
        sides: 0,
        x_spans: vec![12_000; floor.x_spans.len()],
        y_spans: vec![12_000; floor.y_spans.len()],
        x_lines: vec![NO_BEAM; floor.x_lines.len()],
        y_lines: vec![NO_BEAM; floor.y_lines.len()],
        offsets: vec![(0, 0); floor.offsets.len()],
    }
}

/// The records of `file` for which `base`, with that record alone put in, is refused with this number.
fn alone(base: &Floor, file: &[u8], number: u32) -> Vec<Record> {
    let base = base.bytes();
    let mut records = Record::all(file);
    let mut place = 0..RECORD_BYTES;
    records.retain(|_| {
        let mut asked = base.clone();
        asked[place.clone()].copy_from_slice(&file[place.clone()]);
        place = place.end..place.end + RECORD_BYTES;
        refusal(&asked) == number
    });
    records
}

/// Every record with a value out of range, and what was expected.
pub fn out_of_range(file: &[u8]) -> Vec<String> {
    let floor = laid_out(file);
    let records = alone(&mild(&floor), file, 5);
    records
        .iter()
        .map(|record| records::with_range(&floor, record))
        .collect()
}

/// Every span that twice the columns exceed.
pub fn too_short_for_columns(file: &[u8]) -> Vec<String> {
    let floor = laid_out(file);
    let (cx, cy) = (floor.cx, floor.cy);
    let base = Floor {
        cx,
        cy,
        ..mild(&floor)
    };
    let spans = alone(&base, file, 6);
    let words = |record| format!("{}: columns {cx} {cy}", records::words(&floor, record));
    spans.iter().map(words).collect()
}

/// Every beam that is not deeper than the slab is thick, and the layout where it is not allowed.
pub fn beams(file: &[u8]) -> Vec<String> {
    let floor = laid_out(file);
    let deep = Floor {
        t: floor.t,
        x_lines: vec![(150, 1_500); floor.x_lines.len()],
        y_lines: vec![(150, 1_500); floor.y_lines.len()],
        ..mild(&floor)
    };
    let mut shallow = alone(&deep, file, 7);
    // A line without a beam is a matter of the layout.
    shallow.retain(|beam| beam.fields != [0; 3]);
    let words = |beam| format!("{}: slab {}", records::words(&floor, beam), floor.t);
    let mut lines: Vec<String> = shallow.iter().map(words).collect();
    // Every beam is deeper than 90, so that the layout alone is left to refuse.
    let mut thinnest = floor.clone();
    thinnest.t = 90;
    if refusal(&thinnest.bytes()) == 7 {
        lines.push(records::layout(&floor));
    }
    lines
}

/// Where 5, 6 or 7 is refused, 1 to 4 are not.
fn laid_out(file: &[u8]) -> Floor {
    Floor::of(file).expect("a floor that passes checks 1 to 4 is laid out as 01 lists it")
}
