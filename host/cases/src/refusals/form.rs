//! Floors alone, for refusals 1 to 4: length, sizes, count, order and zero fields.

use super::{Case, KINDS, STRAY_VALUES, UNLISTED};
use floor::{last_index, record, with, with_swapped, Field, Floor};
use reference::floor_file::RECORD_BYTES;

pub fn cases() -> Vec<Case> {
    [
        lengths(),
        first_record(),
        record_counts(),
        other_bays_said(),
        kinds(),
        indices(),
        orders(),
        zero_fields(),
    ]
    .into_iter()
    .flatten()
    .collect()
}

/// More bays along x than along y, so that the two cannot stand for each other.
fn base() -> Vec<u8> {
    Floor::good(2, 1).bytes()
}

fn lengths() -> Vec<Case> {
    let fourteen_records = Floor::good(1, 1).bytes();
    let more = Floor::good(2, 1).bytes();
    let mut cases = vec![Case::floor("empty file", Vec::new())];
    for length in [1, 15, 16, 17, 207, 208, 209, 223] {
        cases.push(Case::floor(
            format!("{length} bytes of a good floor"),
            fourteen_records[..length].to_vec(),
        ));
    }
    cases.push(Case::floor("14 records", fourteen_records.clone()));
    for extra in [1, 8, 15] {
        let bytes = [&fourteen_records[..], &vec![0; extra]].concat();
        cases.push(Case::floor(format!("14 records and {extra} bytes"), bytes));
    }
    for length in [225, 239, 287] {
        cases.push(Case::floor(
            format!("{length} bytes of a 2x1 floor"),
            more[..length].to_vec(),
        ));
    }
    for byte in [0, 1, 255] {
        cases.push(Case::floor(
            format!("14 records of bytes {byte}"),
            vec![byte; 14 * RECORD_BYTES],
        ));
    }
    cases
}

fn first_record() -> Vec<Case> {
    let base = base();
    let mut cases = Vec::new();
    for kind in [0, 2, 9, 256, 257] {
        cases.push(Case::floor(
            format!("record 0 of kind {kind}"),
            with(&base, 1, 0, Field::Kind, kind),
        ));
    }
    for index in [1, 256, 65_535] {
        cases.push(Case::floor(
            format!("record 0 of index {index}"),
            with(&base, 1, 0, Field::Index, index),
        ));
    }
    for (nx, ny) in [(0, 1), (0, 12), (12, 0), (12, 1), (1, 12), (13, 1), (1, 13)] {
        cases.push(Case::floor(
            format!("{nx}x{ny} with all its records"),
            Floor::good(nx, ny).bytes(),
        ));
    }
    cases
}

fn record_counts() -> Vec<Case> {
    let base = Floor::good(3, 2).bytes();
    let last = base.len() - RECORD_BYTES;
    let without_an_x_span = [&base[..6 * RECORD_BYTES], &base[7 * RECORD_BYTES..]].concat();
    vec![
        Case::floor("3x2 less its last record", base[..last].to_vec()),
        Case::floor("3x2 less an x span", without_an_x_span),
        Case::floor(
            "3x2 and its last record again",
            [&base[..], &base[last..]].concat(),
        ),
        Case::floor(
            "3x2 and a record of zeros",
            [&base[..], &[0; RECORD_BYTES]].concat(),
        ),
        Case::floor(
            "3x2 and the offset that would come next",
            [base.clone(), record(9, 12, [0, 0, 0])].concat(),
        ),
        Case::floor(
            "1x1 and a record of kind 10",
            [Floor::good(1, 1).bytes(), record(10, 0, [0, 0, 0])].concat(),
        ),
    ]
}

/// The count is (nx+3)(ny+3) − 2: of 3 by 3 bays and 1 by 6 it is the same, and of nx by ny and ny by
/// nx it always is.
fn other_bays_said() -> Vec<Case> {
    let mut cases = Vec::new();
    for (nx, ny, said) in [
        (3, 2, [2, 3]),
        (2, 1, [1, 2]),
        (3, 3, [1, 6]),
        (3, 3, [6, 1]),
        (3, 3, [2, 3]),
        (3, 3, [3, 2]),
        (3, 3, [3, 4]),
        (3, 2, [12, 12]),
    ] {
        let bytes = Floor::good(nx, ny).bytes();
        let bytes = with(&bytes, 1, 0, Field::A, said[0]);
        cases.push(Case::floor(
            format!("{nx}x{ny} said to be {}x{}", said[0], said[1]),
            with(&bytes, 1, 0, Field::B, said[1]),
        ));
    }
    cases
}

fn kinds() -> Vec<Case> {
    let base = base();
    let mut cases = Vec::new();
    for (kind, name) in KINDS {
        let last = last_index(&base, kind);
        for wrong in [kind - 1, kind + 1, kind + 256] {
            cases.push(Case::floor(
                format!("{name} {last} of kind {wrong}"),
                with(&base, kind, last, Field::Kind, wrong.into()),
            ));
        }
    }
    cases
}

fn indices() -> Vec<Case> {
    let base = base();
    let mut cases = Vec::new();
    for (kind, name) in KINDS {
        let last = last_index(&base, kind);
        let mut wrongs = vec![(0, 1), (last, last + 1), (last, last + 256)];
        if last > 0 {
            wrongs.push((last, last - 1));
        }
        wrongs.dedup();
        for (index, wrong) in wrongs {
            cases.push(Case::floor(
                format!("{name} {index} numbered {wrong}"),
                with(&base, kind, index, Field::Index, wrong.into()),
            ));
        }
    }
    cases
}

fn orders() -> Vec<Case> {
    let base = base();
    let mut cases = Vec::new();
    for pair in KINDS.windows(2) {
        let ((kind, name), (next, next_name)) = (pair[0], pair[1]);
        let last = last_index(&base, kind);
        cases.push(Case::floor(
            format!("last {name} swapped with first {next_name}"),
            with_swapped(&base, (kind, last), (next, 0)),
        ));
    }
    for (kind, name) in KINDS {
        let last = last_index(&base, kind);
        if last > 0 {
            cases.push(Case::floor(
                format!("first {name} swapped with the last, {last}"),
                with_swapped(&base, (kind, 0), (kind, last)),
            ));
        }
    }
    cases
}

fn zero_fields() -> Vec<Case> {
    let base = base();
    let mut cases = Vec::new();
    for (kind, field, name) in UNLISTED {
        let last = last_index(&base, kind);
        for stray in STRAY_VALUES {
            cases.push(Case::floor(
                format!("{name} {stray}"),
                with(&base, kind, last, field, stray),
            ));
        }
    }
    cases
}
