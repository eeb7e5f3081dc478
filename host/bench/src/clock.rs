//! Times an operation on both products, batch by batch in turn, so that what else runs on the machine hits both.

use crate::operations::{Operation, Work};
use crate::product::{Answer, Baseline, Ours, Product};
use reference::{places, schedule};
use std::hint::black_box;
use std::time::{Duration, Instant};

const BATCHES: usize = 101;

/// Short, so that most batches run without a break where others use the machine too.
const BATCH: Duration = Duration::from_micros(200);

/// Room for the largest table, and for the governing moments beside it.
const TABLE: usize = 4_992;
const GOVERNING: usize = 1_690;

/// The floor, the table, the slices and the buffer that one product is lent.
#[derive(Clone, PartialEq, Eq, Debug)]
struct Lent {
    floor: Vec<u8>,
    table: Vec<u32>,
    governing: Vec<u32>,
    places: Vec<u32>,
    schedule: Vec<u8>,
}

/// Makes two calls, so that an operation by turns is back where it was.
fn twice<P: Product>(lent: &mut Lent, work: &Work) -> [Answer; 2] {
    let Lent {
        floor,
        table,
        governing,
        places,
        schedule,
    } = lent;
    let mut call = |turn: usize| match work {
        Work::Open => P::open(black_box(floor), black_box(table), black_box(governing)),
        Work::Turns(changes) => P::change(
            black_box(floor),
            black_box(table),
            black_box(governing),
            black_box(&changes[turn]),
        ),
        Work::Again {
            change,
            held,
            place,
        } => {
            floor[*place..place + held.len()].copy_from_slice(held);
            P::change(
                black_box(floor),
                black_box(table),
                black_box(governing),
                black_box(change),
            )
        }
        Work::Panel(x, y) => P::panel(black_box(floor), black_box(*x), black_box(*y)),
        Work::Clear => P::clear(black_box(floor)),
        Work::Places(length) => P::places(black_box(floor), black_box(&mut places[..*length])),
        Work::Schedule(length) => {
            P::schedule(black_box(floor), black_box(&mut schedule[..*length]))
        }
        Work::Steel(query) => P::steel(black_box(*query)),
    };
    [call(0), call(1)]
}

/// Nanoseconds per call.
fn batch<P: Product>(lent: &mut Lent, work: &Work, pairs: u32) -> f64 {
    let start = Instant::now();
    for _ in 0..pairs {
        black_box(twice::<P>(lent, black_box(work)));
    }
    start.elapsed().as_nanos() as f64 / f64::from(2 * pairs)
}

/// Pairs of calls that take about as long as a batch shall.
fn pairs<P: Product>(lent: &mut Lent, work: &Work) -> u32 {
    let call = batch::<P>(lent, work, 200);
    (BATCH.as_nanos() as f64 / (2.0 * call)).max(1.0) as u32
}

fn median(mut times: Vec<f64>) -> f64 {
    times.sort_by(f64::total_cmp);
    times[times.len() / 2]
}

/// Median nanoseconds per call.
pub struct Times {
    pub ours: f64,
    pub baseline: f64,
}

/// Both give the answers, the floor, the table, the slices and the schedule that the other gives, and the answer that
/// the operation names.
fn same(operation: &Operation, lent: &Lent) {
    let (mut ours, mut baseline) = (lent.clone(), lent.clone());
    for _ in 0..2 {
        let answers = twice::<Ours>(&mut ours, &operation.work);
        assert_eq!(answers, [operation.answer; 2], "{}", operation.name);
        assert_eq!(
            answers,
            twice::<Baseline>(&mut baseline, &operation.work),
            "{}",
            operation.name
        );
        assert!(
            ours == baseline,
            "{}: floors, tables, slices or schedules differ",
            operation.name
        );
    }
}

pub fn time(operation: &Operation) -> Times {
    let lent = Lent {
        floor: operation.floor.clone(),
        table: vec![u32::MAX; TABLE],
        governing: vec![u32::MAX; GOVERNING],
        places: vec![u32::MAX; places::ALWAYS_SUFFICE],
        schedule: vec![u8::MAX; schedule::ALWAYS_SUFFICE],
    };
    same(operation, &lent);
    let (mut ours, mut baseline) = (lent.clone(), lent);
    let work = &operation.work;
    let (our_pairs, base_pairs) = (
        pairs::<Ours>(&mut ours, work),
        pairs::<Baseline>(&mut baseline, work),
    );
    let mut times = (Vec::new(), Vec::new());
    for _ in 0..BATCHES {
        times.0.push(batch::<Ours>(&mut ours, work, our_pairs));
        times
            .1
            .push(batch::<Baseline>(&mut baseline, work, base_pairs));
    }
    Times {
        ours: median(times.0),
        baseline: median(times.1),
    }
}
