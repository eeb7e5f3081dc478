//! "What a change may write": the records it names.

use crate::floor_file::Sizes;
use crate::table::{record_count, x_record, y_record};

pub fn all_of_x_line(sizes: Sizes, line: u128) -> Vec<u128> {
    let spans = 0..sizes.nx;
    spans.map(|span| x_record(sizes, line, span)).collect()
}

pub fn all_of_y_line(sizes: Sizes, line: u128) -> Vec<u128> {
    let spans = 0..sizes.ny;
    spans.map(|span| y_record(sizes, line, span)).collect()
}

fn span_of_every_x_line(sizes: Sizes, span: u128) -> Vec<u128> {
    let lines = 0..=sizes.ny;
    lines.map(|line| x_record(sizes, line, span)).collect()
}

fn span_of_every_y_line(sizes: Sizes, span: u128) -> Vec<u128> {
    let lines = 0..=sizes.nx;
    lines.map(|line| y_record(sizes, line, span)).collect()
}

/// "Beam on x line j: that line; for j = 0 the first span of every y line, for j = ny the last"
fn by_beam_on_x_line(sizes: Sizes, line: u128) -> Vec<u128> {
    let mut named = all_of_x_line(sizes, line);
    if line == 0 {
        named.extend(span_of_every_y_line(sizes, 0));
    }
    if line == sizes.ny {
        named.extend(span_of_every_y_line(sizes, sizes.ny - 1));
    }
    named
}

/// "y likewise"
fn by_beam_on_y_line(sizes: Sizes, line: u128) -> Vec<u128> {
    let mut named = all_of_y_line(sizes, line);
    if line == 0 {
        named.extend(span_of_every_x_line(sizes, 0));
    }
    if line == sizes.nx {
        named.extend(span_of_every_x_line(sizes, sizes.nx - 1));
    }
    named
}

/// The records that a change of this kind and index names, none of them twice.
pub fn named(kind: u128, index: u128, sizes: Sizes) -> Vec<u128> {
    match kind {
        // "Kind 3: all."
        3 => (0..record_count(sizes)).collect(),
        // "x span i: span i of every x line, all of y lines i and i+1"
        5 => [
            span_of_every_x_line(sizes, index),
            all_of_y_line(sizes, index),
            all_of_y_line(sizes, index + 1),
        ]
        .concat(),
        // "y likewise"
        6 => [
            span_of_every_y_line(sizes, index),
            all_of_x_line(sizes, index),
            all_of_x_line(sizes, index + 1),
        ]
        .concat(),
        7 => by_beam_on_x_line(sizes, index),
        8 => by_beam_on_y_line(sizes, index),
        // "Offset: none."
        9 => Vec::new(),
        _ => unreachable!("refusal 9 applies"),
    }
}
