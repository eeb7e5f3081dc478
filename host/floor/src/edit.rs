//! Floor files with a record put, altered or moved, whatever comes of it.

use crate::record::{Record, RECORD_BYTES};
use std::ops::Range;

#[derive(Clone, Copy, Debug, PartialEq, Eq)]
pub enum Field {
    Kind,
    Index,
    A,
    B,
    C,
}

pub fn record(kind: u16, index: u16, fields: [u32; 3]) -> Vec<u8> {
    Record {
        kind,
        index,
        fields,
    }
    .bytes()
}

/// The bytes of the record in the floor as built.
fn place(floor: &[u8], kind: u16, index: u16) -> Range<usize> {
    let mut records = Record::all(floor).into_iter();
    let position = records.position(|record| (record.kind, record.index) == (kind, index));
    let start = RECORD_BYTES * position.expect("the floor has the record");
    start..start + RECORD_BYTES
}

/// The bytes of one record, as they stand in the floor.
pub fn held(floor: &[u8], kind: u16, index: u16) -> Vec<u8> {
    floor[place(floor, kind, index)].to_vec()
}

/// One field of one record, as it stands in the floor.
pub fn value(floor: &[u8], kind: u16, index: u16, field: Field) -> u32 {
    let record = Record::read(&held(floor, kind, index));
    match field {
        Field::Kind => record.kind.into(),
        Field::Index => record.index.into(),
        Field::A => record.fields[0],
        Field::B => record.fields[1],
        Field::C => record.fields[2],
    }
}

/// The highest index of a kind in the floor as built.
pub fn last_index(floor: &[u8], kind: u16) -> u16 {
    let mut records = Record::all(floor);
    records.retain(|record| record.kind == kind);
    records.pop().expect("the floor has the kind").index
}

/// The floor with one field of one record replaced.
pub fn with(floor: &[u8], kind: u16, index: u16, field: Field, value: u32) -> Vec<u8> {
    let mut record = Record::read(&held(floor, kind, index));
    let half = || u16::try_from(value).expect("a field of two bytes");
    match field {
        Field::Kind => record.kind = half(),
        Field::Index => record.index = half(),
        Field::A => record.fields[0] = value,
        Field::B => record.fields[1] = value,
        Field::C => record.fields[2] = value,
    }
    let mut edited = floor.to_vec();
    edited[place(floor, kind, index)].copy_from_slice(&record.bytes());
    edited
}

/// The floor with two records changed round, each given by its kind and index.
pub fn with_swapped(floor: &[u8], one: (u16, u16), other: (u16, u16)) -> Vec<u8> {
    let (one, other) = (place(floor, one.0, one.1), place(floor, other.0, other.1));
    let mut edited = floor.to_vec();
    edited[one.clone()].copy_from_slice(&floor[other.clone()]);
    edited[other].copy_from_slice(&floor[one]);
    edited
}
