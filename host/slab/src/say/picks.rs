//! The numbers of the floor that a fold's places have to do with.

use super::folds::Fold;
use crate::way::Way;
use floor::Floor;

pub fn picked<T: Clone>(from: &[T], numbers: &[usize]) -> Vec<T> {
    numbers.iter().map(|&number| from[number].clone()).collect()
}

/// From a row for each j.
pub fn picked_from_rows<T: Clone, R: AsRef<[T]>>(rows: &[R], fold: &Fold) -> Vec<T> {
    let rows = fold.j.iter().map(|&j| rows[j].as_ref());
    rows.flat_map(|row| picked(row, &fold.i)).collect()
}

/// Of the fold's columns, in its direction.
pub fn offsets(floor: &Floor, fold: &Fold) -> Vec<u32> {
    let rows: Vec<&[(u32, u32)]> = floor.offsets.chunks(floor.y_lines.len()).collect();
    let offsets = picked_from_rows(&rows, fold).into_iter();
    let along = |(along_x, along_y)| match fold.way {
        Way::X => along_x,
        Way::Y => along_y,
    };
    offsets.map(along).collect()
}

/// The numbers and those after them: from bays to their lines, from pairs of spans to the spans.
pub fn with_next(numbers: &[usize]) -> Vec<usize> {
    let pairs = numbers.iter().flat_map(|&number| [number, number + 1]);
    let mut all: Vec<usize> = pairs.collect();
    all.dedup();
    all
}

/// The spans, of so many, that end or begin at these lines.
pub fn spans_beside(lines: &[usize], count: usize) -> Vec<usize> {
    let pairs = lines.iter().map(|&line| [line.checked_sub(1), Some(line)]);
    let spans = pairs.flatten().flatten();
    let mut all: Vec<usize> = spans.filter(|&span| span < count).collect();
    all.dedup();
    all
}
