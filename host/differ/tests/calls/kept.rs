//! A few batches that are kept with the program, which is run on them wherever it is proved.

use crate::stream::{Batch, Call, Lent};
use cases::floors::all_broken::all_broken;
use floor::{record, Floor};
use gandhrumil::Query;
use reference::floor_file::sizes;
use reference::{governing, table};

/// A floor with wrong numbers, five past the records of the table and three past the supports.
fn lent(floor: &Floor) -> Lent {
    let floor = floor.bytes();
    let spans = table::length(sizes(&floor)) as u32;
    let supports = governing::length(sizes(&floor)) as u32;
    Lent {
        floor,
        table: (1..=spans + 5).collect(),
        governing: (10_001..=10_003 + supports).collect(),
    }
}

fn query(m: u64, d: u64) -> Call {
    let [b, t, fc, fy] = [1_000, 150, 30, 420];
    Call::Steel(Query { m, b, t, d, fc, fy })
}

fn batch(lent: Lent, calls: &[Call]) -> Batch {
    let mut batch = Batch::new(lent);
    for call in calls {
        batch.make(call.clone());
    }
    batch
}

fn span(length: u32) -> Vec<u8> {
    record(5, 1, [length, 0, 0])
}

/// Opened, an x span changed, and changes that are refused: a span out of range, and half a record.
fn clear_floor() -> Batch {
    let mut batch = batch(
        lent(&Floor::clear(3, 3)),
        &[
            Call::Open,
            Call::Clear,
            Call::Change(span(5_980)),
            Call::Change(span(5_990)),
            Call::Change(span(6_000)[..8].to_vec()),
            Call::Panel(2, 0),
            Call::Panel(3, 0),
        ],
    );
    batch.show();
    batch
}

/// An x span changed on wrong numbers, some of which outlive it.
fn wrong_numbers() -> Batch {
    let mut batch = batch(lent(&Floor::clear(3, 3)), &[Call::Change(span(5_980))]);
    batch.show();
    batch
}

/// Beams everywhere with A below 10000, and α such that the rounding of the inertia's last term counts.
fn beams() -> Batch {
    let floor = Floor {
        t: 216,
        x_lines: vec![(351, 288), (336, 324), (576, 324), (528, 324)],
        y_lines: vec![(528, 324), (576, 324), (336, 324), (756, 288)],
        ..Floor::clear(3, 3)
    };
    let deeper = Call::Change(record(7, 2, [576, 350, 0]));
    let mut batch = batch(lent(&floor), &[Call::Open, deeper, Call::Panel(1, 1)]);
    batch.show();
    batch
}

/// Beams everywhere, an outer line with α 8,000 made 7,999 and 8,000 again: the slab of 200 is then 1 mm too thin,
/// and an inner panel asks for no more.
fn weak_edge() -> Batch {
    let floor = Floor {
        x_spans: vec![6_580; 3],
        y_spans: vec![5_000; 3],
        x_lines: vec![(655, 291), (300, 330), (300, 330), (400, 400)],
        y_lines: vec![(400, 400), (300, 330), (300, 330), (400, 400)],
        ..Floor::clear(3, 3)
    };
    let edge = |(width, depth)| Call::Change(record(7, 0, [width, depth, 0]));
    let calls = [
        Call::Open,
        Call::Panel(1, 0),
        edge((772, 277)),
        Call::Clear,
        Call::Panel(1, 0),
        Call::Panel(1, 1),
        edge((655, 291)),
        Call::Clear,
    ];
    batch(lent(&floor), &calls)
}

/// Refused 1; 8 and 13 for a table and a slice that are a number short. None of them writes.
fn refused_floors() -> [Batch; 3] {
    let no_floor = Lent::of(&Floor::clear(3, 3).bytes()[..40], &[7, 8], &[9]);
    let mut short_table = lent(&Floor::clear(3, 3));
    let mut short_slice = short_table.clone();
    short_table.table.truncate(383);
    short_slice.governing.truncate(159);
    let opened_and_changed = [Call::Open, Call::Change(span(5_980))];
    let on_no_floor = [
        Call::Open,
        Call::Change(vec![]),
        Call::Panel(0, 0),
        Call::Clear,
        Call::Places(vec![]),
        Call::Schedule(vec![]),
    ];
    let mut refused = [
        batch(no_floor, &on_no_floor),
        batch(short_table, &opened_and_changed),
        batch(short_slice, &opened_and_changed),
    ];
    refused[0].show();
    refused
}

/// The last column a mm too far off along y, and a last panel that asks for 110.5 of 110 and then for 110; no table is
/// lent.
fn broken_in_one_place() -> [Batch; 3] {
    let mut stray = Floor::clear(3, 3);
    stray.offsets[15].1 = 601;
    let thin = |span| Floor {
        t: 110,
        x_spans: vec![4_800, 4_800, span],
        y_spans: vec![4_800, 4_800, span],
        x_lines: vec![(300, 600); 4],
        y_lines: vec![(300, 600); 4],
        ..Floor::clear(3, 3)
    };
    let asked = [Call::Clear, Call::Places(vec![9; 5])];
    [stray, thin(4_920), thin(4_900)].map(|floor| batch(Lent::of(&floor.bytes(), &[], &[]), &asked))
}

/// 3 by 3 bays of 2,000 with beams everywhere, under loads for which x frames and y frames take areas of their own: a schedule with a byte past it,
/// and a buffer too short for it. With too little dead load for its live load the floor is refused 16, with a beam on y line 1 that is as wide as its
/// column strip 17.
fn schedules() -> [Batch; 3] {
    let barred = Floor {
        t: 125,
        dead: 30_000,
        live: 50_000,
        x_spans: vec![2_000; 3],
        y_spans: vec![2_000; 3],
        x_lines: vec![(301, 400); 4],
        y_lines: vec![(301, 400); 4],
        ..Floor::clear(3, 3)
    };
    let mut unclear = barred.clone();
    unclear.dead = 24_999;
    let mut unbarred = barred.clone();
    unbarred.y_lines[1].0 = 1_000;
    let asked = |floor: Floor, lengths: &[usize]| {
        let calls: Vec<Call> = lengths
            .iter()
            .map(|&length| Call::Schedule(vec![9; length]))
            .collect();
        batch(Lent::of(&floor.bytes(), &[], &[]), &calls)
    };
    [
        asked(barred, &[4_609, 40]),
        asked(unclear, &[3]),
        asked(unbarred, &[4_608]),
    ]
}

/// Every limit at every place of 2 by 2 bays: 35 places, on a slice that lacks a number and on one with two too many.
fn broken_everywhere() -> Batch {
    let floor = all_broken(2, 2).bytes();
    let asked = [139, 142].map(|length| Call::Places((1..=length).collect()));
    batch(Lent::of(&floor, &[], &[]), &asked)
}

pub fn batches() -> Vec<Batch> {
    let queries = [
        (2_195_000, 124),
        (0, 124),
        (20_000_000, 124),
        (2_000_000_001, 124),
        (2_195_000, 0),
    ]
    .map(|(m, d)| query(m, d));
    let mut batches = vec![clear_floor(), wrong_numbers(), beams(), weak_edge()];
    batches.extend(refused_floors());
    batches.extend(broken_in_one_place());
    batches.push(broken_everywhere());
    batches.extend(schedules());
    batches.push(batch(Lent::default(), &queries));
    batches
}
