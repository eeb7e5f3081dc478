//! The table of a floor that is not refused: a record of sixteen numbers for each span of each frame.

use crate::floor_file::{sizes, Sizes};
use crate::frame::{x_frames, y_frames, Frame};
use crate::span::{Span, NUMBERS};
use crate::verdict::verdict;

/// "x frames come first (line j, span i at j·nx + i)"
pub fn x_record(sizes: Sizes, line: u128, span: u128) -> u128 {
    line * sizes.nx + span
}

/// "then y frames ((ny+1)·nx + i·ny + j)", for line i and span j.
pub fn y_record(sizes: Sizes, line: u128, span: u128) -> u128 {
    (sizes.ny + 1) * sizes.nx + line * sizes.ny + span
}

/// The x frames are ny+1, of nx spans each, the y frames nx+1, of ny spans each.
pub fn record_count(sizes: Sizes) -> u128 {
    (sizes.ny + 1) * sizes.nx + (sizes.nx + 1) * sizes.ny
}

/// "16·((ny+1)nx+(nx+1)ny) numbers"
pub fn length(sizes: Sizes) -> usize {
    NUMBERS * record_count(sizes) as usize
}

/// Where in the table the numbers of a record stand.
pub fn place(record: u128) -> std::ops::Range<usize> {
    let start = NUMBERS * record as usize;
    start..start + NUMBERS
}

fn write_frames(
    table: &mut [u32],
    frames: &[Frame],
    sizes: Sizes,
    record: fn(Sizes, u128, u128) -> u128,
) {
    for (line, frame) in frames.iter().enumerate() {
        for span in 0..frame.spans.len() {
            let record = record(sizes, line as u128, span as u128);
            table[place(record)].copy_from_slice(&Span::of(frame, span).numbers());
        }
    }
}

/// The whole table. "Verdict not 0: all of them are 0."
pub fn numbers(floor: &[u8]) -> Vec<u32> {
    let sizes = sizes(floor);
    let mut table = vec![0; length(sizes)];
    if verdict(floor) == 0 {
        write_frames(&mut table, &x_frames(floor), sizes, x_record);
        write_frames(&mut table, &y_frames(floor), sizes, y_record);
    }
    table
}
