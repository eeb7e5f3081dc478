//! "The larger moment at each column" (02, One): of every frame and support "the governing negative".

use crate::floor_file::Sizes;
use crate::named::{all_of_x_line, all_of_y_line};
use crate::table;
use std::ops::Range;

/// "Five numbers per support": "total, column, middle, beam and slab parts".
pub const NUMBERS: usize = 5;

/// The five numbers at one face of a support.
pub type Face = [u32; NUMBERS];

/// "Mo, then low end, between, high end": where in a record the two ends stand.
pub const LOW_END: Range<usize> = 1..6;
pub const HIGH_END: Range<usize> = 11..16;

/// "x frames first by line then support": each has nx+1 supports.
pub fn x_support(sizes: Sizes, line: u128, support: u128) -> u128 {
    line * (sizes.nx + 1) + support
}

/// Then the y frames, each of which has ny+1 supports.
pub fn y_support(sizes: Sizes, line: u128, support: u128) -> u128 {
    (sizes.ny + 1) * (sizes.nx + 1) + line * (sizes.ny + 1) + support
}

pub fn support_count(sizes: Sizes) -> u128 {
    (sizes.ny + 1) * (sizes.nx + 1) + (sizes.nx + 1) * (sizes.ny + 1)
}

pub fn length(sizes: Sizes) -> usize {
    NUMBERS * support_count(sizes) as usize
}

/// Where in the slice the numbers of a support stand.
pub fn place(support: u128) -> Range<usize> {
    let start = NUMBERS * support as usize;
    start..start + NUMBERS
}

/// A support by its number, and the records of the spans on either side of it: "an outer support has
/// one face".
#[derive(Clone, Copy, Debug, PartialEq, Eq)]
pub struct Support {
    pub number: u128,
    pub lower_span: Option<u128>,
    pub higher_span: Option<u128>,
}

/// The supports of a frame, by the records of its spans and the number of its first support: support s
/// lies between the spans s−1 and s.
fn supports_of_frame(spans: &[u128], first: u128) -> Vec<Support> {
    let mut supports = Vec::new();
    for s in 0..=spans.len() {
        supports.push(Support {
            number: first + s as u128,
            lower_span: s.checked_sub(1).map(|span| spans[span]),
            higher_span: spans.get(s).copied(),
        });
    }
    supports
}

/// All of them, in their order.
pub fn supports(sizes: Sizes) -> Vec<Support> {
    let mut supports = Vec::new();
    for line in 0..=sizes.ny {
        let spans = all_of_x_line(sizes, line);
        supports.extend(supports_of_frame(&spans, x_support(sizes, line, 0)));
    }
    for line in 0..=sizes.nx {
        let spans = all_of_y_line(sizes, line);
        supports.extend(supports_of_frame(&spans, y_support(sizes, line, 0)));
    }
    supports
}

/// "only supports next to a written record"
pub fn supports_next_to(sizes: Sizes, records: &[u128]) -> Vec<Support> {
    let written = |span: Option<u128>| span.is_some_and(|span| records.contains(&span));
    let mut supports = supports(sizes);
    supports.retain(|support| written(support.lower_span) || written(support.higher_span));
    supports
}

fn face(table: &[u32], record: u128, end: Range<usize>) -> Face {
    let record = &table[table::place(record)];
    record[end].try_into().expect("five numbers")
}

impl Support {
    /// The high end of the lower span, then the low end of the higher one.
    pub fn faces(&self, table: &[u32]) -> Vec<Face> {
        let lower = self.lower_span.map(|record| face(table, record, HIGH_END));
        let higher = self.higher_span.map(|record| face(table, record, LOW_END));
        lower.into_iter().chain(higher).collect()
    }

    /// "taken from the face with the larger total, the lower span's on a tie"
    pub fn governing(&self, table: &[u32]) -> Face {
        let faces = self.faces(table);
        let total = |face: Face| face[0];
        match faces[..] {
            [lower, higher] if total(higher) > total(lower) => higher,
            [lower, _] => lower,
            [only] => only,
            _ => unreachable!("a frame has a span"),
        }
    }
}

/// Writes the supports "from the table as it then stands". "All zero when the verdict is not 0": so is
/// the table then.
pub fn write(supports: &[Support], table: &[u32], governing: &mut [u32]) {
    for support in supports {
        governing[place(support.number)].copy_from_slice(&support.governing(table));
    }
}

/// The whole slice that agrees with a table.
pub fn numbers(sizes: Sizes, table: &[u32]) -> Vec<u32> {
    let mut governing = vec![0; length(sizes)];
    write(&supports(sizes), table, &mut governing);
    governing
}
