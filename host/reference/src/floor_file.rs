//! "The floor file"

/// "Records of 16 bytes, no header"
pub const RECORD_BYTES: usize = 16;

/// "kind (2 bytes), index (2), then a, b, c (4 each, unsigned)"
#[derive(Clone, Copy, Debug, PartialEq, Eq)]
pub struct Record {
    pub kind: u128,
    pub index: u128,
    pub a: u128,
    pub b: u128,
    pub c: u128,
}

/// "little-endian"
fn number(bytes: &[u8]) -> u128 {
    bytes
        .iter()
        .rev()
        .fold(0, |higher, &byte| 256 * higher + u128::from(byte))
}

fn kind_of(record: &[u8]) -> u128 {
    number(&record[0..2])
}

impl Record {
    pub fn read(bytes: &[u8]) -> Record {
        Record {
            kind: kind_of(bytes),
            index: number(&bytes[2..4]),
            a: number(&bytes[4..8]),
            b: number(&bytes[8..12]),
            c: number(&bytes[12..16]),
        }
    }
}

pub fn records(floor: &[u8]) -> Vec<Record> {
    floor.chunks_exact(RECORD_BYTES).map(Record::read).collect()
}

/// Speaks of the floor's records of one kind only where refusal 4 does not apply.
pub fn records_of_kind(floor: &[u8], kind: u128) -> Vec<Record> {
    let all = floor.chunks_exact(RECORD_BYTES);
    let of_kind = all.filter(|bytes| kind_of(bytes) == kind);
    of_kind.map(Record::read).collect()
}

/// "bays nx 1..12, bays ny 1..12, slab t 90..500"
#[derive(Clone, Copy, Debug, PartialEq, Eq)]
pub struct Sizes {
    pub nx: u128,
    pub ny: u128,
    pub t: u128,
}

pub fn sizes(floor: &[u8]) -> Sizes {
    let first = Record::read(floor);
    Sizes {
        nx: first.a,
        ny: first.b,
        t: first.c,
    }
}

/// The column "count" of the table of kinds.
pub fn count(kind: u128, sizes: Sizes) -> u128 {
    match kind {
        1..=4 => 1,
        5 => sizes.nx,
        6 => sizes.ny,
        7 => sizes.ny + 1,
        8 => sizes.nx + 1,
        9 => (sizes.nx + 1) * (sizes.ny + 1),
        _ => 0,
    }
}

/// "Exactly this order, indices rising from 0": kind and index of every record.
pub fn order(sizes: Sizes) -> Vec<(u128, u128)> {
    let mut order = Vec::new();
    for kind in 1..=9 {
        for index in 0..count(kind, sizes) {
            order.push((kind, index));
        }
    }
    order
}

/// "a field not listed is zero", by the column "a, b, c" of the table of kinds.
pub fn unlisted_fields_are_zero(record: Record) -> bool {
    match record.kind {
        1 | 4 => true,
        2 | 3 | 7 | 8 | 9 => record.c == 0,
        5 | 6 => record.b == 0 && record.c == 0,
        _ => false,
    }
}

/// The ranges in the column "a, b, c" of the table of kinds.
pub fn values_are_in_range(record: Record) -> bool {
    let Record { kind, a, b, c, .. } = record;
    match kind {
        // "bays nx 1..12, bays ny 1..12, slab t 90..500"
        1 => (1..=12).contains(&a) && (1..=12).contains(&b) && (90..=500).contains(&c),
        2 => materials_are_in_range(a, b),
        // "dead D 1,000..30,000 (slab included), live L 0..50,000"
        3 => (1_000..=30_000).contains(&a) && (0..=50_000).contains(&b),
        4 => column_is_in_range(a) && column_is_in_range(b) && sides_are_in_range(c),
        5 | 6 => span_is_in_range(a),
        7 | 8 => beam_is_in_range(a, b),
        // "size along x, along y, 0..12,000"
        9 => (0..=12_000).contains(&a) && (0..=12_000).contains(&b),
        _ => false,
    }
}

/// "fc 20..60 MPa, fy 280, 420 or 520"
pub fn materials_are_in_range(fc: u128, fy: u128) -> bool {
    (20..=60).contains(&fc) && (fy == 280 || fy == 420 || fy == 520)
}

/// "cx, cy 200..1,500, multiples of 10"
fn column_is_in_range(column: u128) -> bool {
    (200..=1_500).contains(&column) && column.is_multiple_of(10)
}

/// "1,000..12,000, a multiple of 20"
fn span_is_in_range(span: u128) -> bool {
    (1_000..=12_000).contains(&span) && span.is_multiple_of(20)
}

/// "width 150..1,000, depth 91..1,500, or both 0"
fn beam_is_in_range(width: u128, depth: u128) -> bool {
    let both_zero = width == 0 && depth == 0;
    both_zero || (150..=1_000).contains(&width) && (91..=1_500).contains(&depth)
}

/// The codes of the four sides: "each 0 columns, 1 unrestrained, 2 fully restrained".
#[derive(Clone, Copy, Debug, PartialEq, Eq)]
pub struct Sides {
    pub west: u128,
    pub east: u128,
    pub south: u128,
    pub north: u128,
}

/// "Sides = west + 4·east + 16·south + 64·north"
pub fn sides(sum: u128) -> Sides {
    Sides {
        west: sum % 4,
        east: sum / 4 % 4,
        south: sum / 16 % 4,
        north: sum / 64 % 4,
    }
}

/// "a digit 3, or a sum above 170, is out of range"
fn sides_are_in_range(sum: u128) -> bool {
    let Sides {
        west,
        east,
        south,
        north,
    } = sides(sum);
    let digit_3 = [west, east, south, north].contains(&3);
    !digit_3 && sum <= 170
}
