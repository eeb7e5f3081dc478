//! Changes: from clear to clear of every kind, into and out of a broken verdict, refused.

use super::{overloaded, Operation, Work};
use crate::floors::with_beams;
use crate::product::Answer;
use crate::size::Size;
use floor::{record, Floor, Record, RECORD_BYTES};
use reference::floor_file::sizes;
use reference::named::named;

/// Where the record stands that a change replaces, and its bytes.
fn held(floor: &[u8], change: &[u8]) -> (usize, Vec<u8>) {
    let mut records = floor.chunks(RECORD_BYTES).enumerate();
    let (number, held) = records
        .find(|(_, held)| held[..4] == change[..4])
        .expect("the floor has the record");
    (number * RECORD_BYTES, held.to_vec())
}

/// Between the floor's own record and another one.
fn turns(name: &'static str, floor: &Floor, change: Vec<u8>) -> Operation {
    let floor = floor.bytes();
    let Record { kind, index, .. } = Record::read(&change);
    let (_, held) = held(&floor, &change);
    Operation {
        name,
        writes: named(kind.into(), index.into(), sizes(&floor)).len(),
        work: Work::Turns([change, held]),
        answer: (0, 0),
        floor,
    }
}

/// From clear to clear: of each kind a record in the middle, and beams on an outer line.
pub fn clear(size: Size) -> Vec<Operation> {
    let middle = size.0 as u16 / 2;
    let beam = |kind, line| record(kind, line, [320, 650, 0]);
    let changes = [
        ("change 3, loads", record(3, 0, [6_000, 2_500, 0])),
        ("change 5, x span", record(5, middle, [5_900, 0, 0])),
        ("change 6, y span", record(6, middle, [5_500, 0, 0])),
        ("change 7, beam on an inner x line", beam(7, middle)),
        ("change 7, beam on x line 0", beam(7, 0)),
        ("change 8, beam on an inner y line", beam(8, middle)),
        ("change 8, beam on y line 0", beam(8, 0)),
        ("change 9, offset", record(9, middle, [310, 150, 0])),
    ];
    let floor = with_beams(size);
    let changes = changes.into_iter();
    changes
        .map(|(name, change)| turns(name, &floor, change))
        .collect()
}

fn again(name: &'static str, floor: &Floor, change: Vec<u8>, answer: Answer) -> Operation {
    let floor = floor.bytes();
    let (place, held) = held(&floor, &change);
    Operation {
        name,
        writes: 0,
        work: Work::Again {
            change,
            held,
            place,
        },
        answer,
        floor,
    }
}

pub fn others(size: Size) -> Vec<Operation> {
    let clear = with_beams(size);
    let broken = overloaded(&clear);
    let loads = |floor: &Floor| record(3, 0, [floor.dead, floor.live, 0]);
    let columns = record(4, 0, [clear.cx, clear.cy, clear.sides]);
    let far = record(9, 1, [0, 12_001, 0]);
    let whole_table = |operation| Operation {
        writes: size.records(),
        ..operation
    };
    vec![
        whole_table(again(
            "change into a broken verdict",
            &clear,
            loads(&broken),
            (0, 16),
        )),
        whole_table(again(
            "change out of a broken verdict",
            &broken,
            loads(&clear),
            (0, 0),
        )),
        again("change refused 9 (kind 4)", &clear, columns, (9, 255)),
        again("change refused 5 (offset)", &clear, far, (5, 255)),
    ]
}
