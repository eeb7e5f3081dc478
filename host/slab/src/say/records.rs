//! One record of a floor in the words of its text.

use super::sentences;
use crate::text::sides;
use floor::{Floor, Record, NO_BEAM};

pub fn words(floor: &Floor, record: &Record) -> String {
    let Record {
        kind,
        index,
        fields: [a, b, c],
    } = *record;
    let across = floor.x_spans.len() + 1;
    let (i, j) = (usize::from(index) % across, usize::from(index) / across);
    match kind {
        2 => format!("concrete {a}, steel {b}"),
        3 => format!("dead {a}, live {b}"),
        4 => format!("columns {a} {b}, sides {}", sides::written(c)),
        5 => format!("x span {index} of {a} mm"),
        6 => format!("y span {index} of {a} mm"),
        7 => format!("x line {index} beam {a} {b}"),
        8 => format!("y line {index} beam {a} {b}"),
        9 => format!("column {i} {j} offset {a} {b}"),
        _ => format!("{a} by {b} bays, slab {c}"),
    }
}

pub fn with_range(floor: &Floor, record: &Record) -> String {
    let words = words(floor, record);
    match sentences::range(record.kind) {
        Some(range) => format!("{words}: expected {range}"),
        None => words,
    }
}

/// Which lines have a beam.
pub fn layout(floor: &Floor) -> String {
    let (x_lines, y_lines) = (beamed(&floor.x_lines), beamed(&floor.y_lines));
    format!("beams on x lines {x_lines}, on y lines {y_lines}")
}

fn beamed(lines: &[(u32, u32)]) -> String {
    let all = lines.iter().enumerate();
    let beamed = all.filter(|(_, beam)| **beam != NO_BEAM);
    let numbers: Vec<String> = beamed.map(|(line, _)| line.to_string()).collect();
    match numbers[..] {
        [] => "none".to_string(),
        _ => numbers.join(" ") + &format!(" of 0 to {}", lines.len() - 1),
    }
}
