//! "The floor file" and refusals 1 to 4.

use crate::floor::{Floor, MOST_BAYS};

pub const RECORD: usize = 16;

/// Kind and index as one number, then a, b, c.
#[inline]
pub fn fields(record: &[u8; RECORD]) -> (u32, [u32; 3]) {
    let word = |at: usize| {
        u32::from_le_bytes([record[at], record[at + 1], record[at + 2], record[at + 3]])
    };
    (word(0), [word(4), word(8), word(12)])
}

/// The number that `fields` gives for a kind and an index.
fn head(kind: u32, index: usize) -> u32 {
    kind | (index as u32) << 16
}

#[inline]
pub fn read(bytes: &[u8]) -> Result<Floor, u32> {
    let (records, rest) = bytes.as_chunks();
    // 1: "length is no multiple of 16, or below 14 records"
    if !rest.is_empty() || records.len() < 14 {
        return Err(1);
    }
    let mut floor = sized(&records[0])?;
    // 3: "record count is not what nx and ny ask"
    if records.len() != (1..=9).map(|kind| floor.count(kind)).sum() {
        return Err(3);
    }
    read_records(&mut floor, records)?;
    Ok(floor)
}

/// 2: "record 0 is not kind 1 index 0, or nx, ny or t is out of range"
#[inline]
fn sized(record: &[u8; RECORD]) -> Result<Floor, u32> {
    let (given, [nx, ny, t]) = fields(record);
    let bays = 1..=MOST_BAYS as u32;
    if given != head(1, 0) || !bays.contains(&nx) || !bays.contains(&ny) || !(90..=500).contains(&t)
    {
        return Err(2);
    }
    Ok(Floor::sized(nx as usize, ny as usize, t))
}

/// 4: "some kind, index or zero field is not as listed"
fn read_records(floor: &mut Floor, records: &[[u8; RECORD]]) -> Result<(), u32> {
    let mut rest = &records[1..];
    let stray = read_kind::<2>(floor, &mut rest)
        | read_kind::<3>(floor, &mut rest)
        | read_kind::<4>(floor, &mut rest)
        | read_kind::<5>(floor, &mut rest)
        | read_kind::<6>(floor, &mut rest)
        | read_kind::<7>(floor, &mut rest)
        | read_kind::<8>(floor, &mut rest)
        | read_kind::<9>(floor, &mut rest);
    match stray {
        0 => Ok(()),
        _ => Err(4),
    }
}

/// Takes a kind's records off the rest; answers 0 where kind, index and zero fields of all of them are as listed.
/// By kind, so that no record asks again what it is.
fn read_kind<const KIND: u32>(floor: &mut Floor, rest: &mut &[[u8; RECORD]]) -> u32 {
    let (records, others) = rest.split_at(floor.count(KIND));
    *rest = others;
    let mut stray = 0;
    for (index, record) in records.iter().enumerate() {
        let (given, values) = fields(record);
        stray |= given ^ head(KIND, index) | floor.put(KIND, index, values);
    }
    stray
}
