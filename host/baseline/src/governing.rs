//! "The larger moment at each column" (02, One): five numbers for each support of each frame.

use crate::floor::{Floor, X, Y};
use crate::frames::Spans;
use std::ops::Range;

/// "supports next to a written record": those of the spans that are written. Reads the table as it stands.
pub fn fill(governing: &mut [[u32; 5]], table: &[[u32; 16]], floor: &Floor, spans: Spans) {
    let (x_table, y_table) = table.split_at(floor.lines(X) * floor.bays[X]);
    let (x_governing, y_governing) = governing.split_at_mut(floor.columns());
    for (way, table, governing) in [(X, x_table, x_governing), (Y, y_table, y_governing)] {
        let bays = floor.bays[way];
        let frames = table.chunks_exact(bays);
        let supports = governing.chunks_exact_mut(bays + 1);
        for (line, (records, supports)) in frames.zip(supports).enumerate() {
            let written = spans.of(floor, way, line);
            if !written.is_empty() {
                fill_line(supports, records, written);
            }
        }
    }
}

/// Those at the ends of spans that follow one another.
fn fill_line(supports: &mut [[u32; 5]], records: &[[u32; 16]], written: Range<usize>) {
    let next_to = &mut supports[written.start..=written.end];
    for (support, numbers) in (written.start..).zip(next_to) {
        *numbers = larger(records, support);
    }
}

/// "from the face with the larger total, the lower span's on a tie; an outer support has one face"
fn larger(records: &[[u32; 16]], support: usize) -> [u32; 5] {
    let lower = support.checked_sub(1).map(|span| high_end(&records[span]));
    let higher = records.get(support).map(low_end);
    match (lower, higher) {
        (Some(lower), Some(higher)) if higher[0] > lower[0] => higher,
        (Some(lower), _) => lower,
        (None, higher) => higher.unwrap_or_default(),
    }
}

/// "Mo, then low end, between, high end"
fn low_end(record: &[u32; 16]) -> [u32; 5] {
    [1, 2, 3, 4, 5].map(|place| record[place])
}

fn high_end(record: &[u32; 16]) -> [u32; 5] {
    [11, 12, 13, 14, 15].map(|place| record[place])
}
