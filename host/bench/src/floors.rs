//! The floors that are timed: square, of a given number of bays each way, every limit kept with room to spare.

use crate::size::Size;
use floor::Floor;

/// "west + 4·east + 16·south + 64·north": columns west and north, unrestrained east, fully restrained south.
const SIDES: u32 = 4 + 2 * 16;

/// Spans that differ from bay to bay, and offsets at every third column.
pub fn without_beams(size: Size) -> Floor {
    let bays = size.0;
    let spans = |around: u32| (0..bays as u32).map(move |bay| around + 200 * (bay % 3));
    let offsets = (0..(bays + 1) * (bays + 1)).map(|column| match column % 3 {
        0 => (200, 150),
        _ => (0, 0),
    });
    Floor {
        t: 220,
        sides: SIDES,
        x_spans: spans(5_800).collect(),
        y_spans: spans(5_400).collect(),
        offsets: offsets.collect(),
        ..Floor::good(bays, bays)
    }
}

/// A beam on every line, of three sizes by turns.
pub fn with_beams(size: Size) -> Floor {
    let beams = |depth: u32| (0..=size.0 as u32).map(move |line| (350, depth + 20 * (line % 3)));
    Floor {
        x_lines: beams(600).collect(),
        y_lines: beams(640).collect(),
        ..without_beams(size)
    }
}
