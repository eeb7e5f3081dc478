//! Batches of calls as the program reads them (`crates/calls/src/main.rt` has the form), with the lines that it has to print.

use gandhrumil::{Answer, Query};
use reference::{clear, governing, held, opening, panel, places, schedule, span, steel};

/// What the program's buffers have room for.
pub const LONGEST_FLOOR: usize = 4096;
pub const LONGEST_TABLE: usize = 320 * span::NUMBERS;
pub const LONGEST_GOVERNING: usize = 346 * governing::NUMBERS;
pub const LONGEST_CHANGE: usize = 64;
pub const LONGEST_PLACES: usize = 803 * places::NUMBERS;
pub const LONGEST_SCHEDULE: usize = 60_000;

#[derive(Clone, Debug)]
pub enum Call {
    Open,
    Change(Vec<u8>),
    Panel(u64, u64),
    Steel(Query),
    Show,
    Clear,
    /// On a slice of these numbers, all of which are printed as they are left.
    Places(Vec<u32>),
    /// On a buffer of these bytes, all of which are printed as they are left.
    Schedule(Vec<u8>),
}

/// A call with the right lines.
pub struct Made {
    pub call: Call,
    pub lines: Vec<String>,
}

/// A floor with the table and the governing slice lent to it, and the calls made on them.
pub struct Batch {
    lent: Lent,
    /// As the calls left it.
    pub left: Lent,
    pub made: Vec<Made>,
}

#[derive(Clone, Debug, Default, PartialEq, Eq)]
pub struct Lent {
    pub floor: Vec<u8>,
    pub table: Vec<u32>,
    pub governing: Vec<u32>,
}

impl Lent {
    pub fn of(floor: &[u8], table: &[u32], governing: &[u32]) -> Lent {
        Lent {
            floor: floor.to_vec(),
            table: table.to_vec(),
            governing: governing.to_vec(),
        }
    }
}

fn wide(numbers: &[u64]) -> Vec<u8> {
    let bytes = numbers.iter().map(|number| number.to_le_bytes());
    bytes.collect::<Vec<_>>().concat()
}

/// How many there are, then these.
fn counted(numbers: &[u32]) -> Vec<u8> {
    let bytes = numbers.iter().map(|number| number.to_le_bytes());
    [
        word(numbers.len()).to_vec(),
        bytes.collect::<Vec<_>>().concat(),
    ]
    .concat()
}

fn counted_bytes(bytes: &[u8]) -> Vec<u8> {
    [&word(bytes.len()), bytes].concat()
}

fn word(number: usize) -> [u8; 4] {
    u32::try_from(number).unwrap().to_le_bytes()
}

impl Call {
    fn stdin(&self) -> Vec<u8> {
        let (number, rest) = match self {
            Call::Open => (1, Vec::new()),
            Call::Change(bytes) => (2, counted_bytes(bytes)),
            Call::Panel(x, y) => (3, wide(&[*x, *y])),
            Call::Steel(Query { m, b, t, d, fc, fy }) => (4, wide(&[*m, *b, *t, *d, *fc, *fy])),
            Call::Show => (5, Vec::new()),
            Call::Clear => (6, Vec::new()),
            Call::Places(slice) => (7, counted(slice)),
            Call::Schedule(bytes) => (8, counted_bytes(bytes)),
        };
        [&word(number), &rest[..]].concat()
    }
}

impl Made {
    pub fn text(&self) -> String {
        self.lines.iter().map(|line| format!("{line}\n")).collect()
    }
}

impl Batch {
    pub fn new(lent: Lent) -> Batch {
        Batch {
            left: lent.clone(),
            lent,
            made: Vec::new(),
        }
    }

    pub fn fits(&self) -> bool {
        let Lent {
            floor,
            table,
            governing,
        } = &self.lent;
        floor.len() <= LONGEST_FLOOR
            && table.len() <= LONGEST_TABLE
            && governing.len() <= LONGEST_GOVERNING
    }

    /// Makes a call that the reference answers.
    pub fn make(&mut self, call: Call) -> Answer {
        let Lent {
            floor,
            table,
            governing,
        } = &mut self.left;
        let answered = match &call {
            Call::Open => opening::open(floor, table, governing),
            Call::Change(bytes) => held::change(floor, table, governing, bytes),
            Call::Panel(x, y) => panel::panel(floor, (*x).into(), (*y).into()),
            Call::Steel(Query { m, b, t, d, fc, fy }) => {
                let numbers = [m, b, t, d, fc, fy].map(|&number| number.into());
                steel::answer(steel::Query::of(numbers))
            }
            Call::Clear => clear::clear(floor),
            Call::Places(slice) => return self.make_places(&mut slice.clone()),
            Call::Schedule(bytes) => return self.make_schedule(&mut bytes.clone()),
            Call::Show => panic!("show answers nothing"),
        };
        self.answered(call, answered, [0; 0])
    }

    /// Leaves the slice as the call does.
    pub fn make_places(&mut self, slice: &mut [u32]) -> Answer {
        let call = Call::Places(slice.to_vec());
        let answered = places::places(&self.left.floor, slice);
        self.answered(call, answered, slice)
    }

    /// Leaves the buffer as the call does.
    pub fn make_schedule(&mut self, bytes: &mut [u8]) -> Answer {
        let call = Call::Schedule(bytes.to_vec());
        let answered = schedule::schedule(&self.left.floor, bytes);
        self.answered(call, answered, bytes)
    }

    /// The answer's line, then the numbers that are printed after it.
    fn answered(
        &mut self,
        call: Call,
        (refused, value): (u128, u128),
        numbers: impl IntoIterator<Item: ToString>,
    ) -> Answer {
        let mut lines = vec![format!("{refused} {value}")];
        lines.extend(numbers.into_iter().map(|number| number.to_string()));
        self.made.push(Made { call, lines });
        Answer {
            refusal: u32::try_from(refused).unwrap(),
            value: u32::try_from(value).unwrap(),
        }
    }

    /// The floor's bytes, then all numbers of the table, then all numbers of the slice.
    pub fn show(&mut self) {
        let bytes = self.left.floor.iter().map(ToString::to_string);
        let numbers = self.left.table.iter().chain(&self.left.governing);
        self.made.push(Made {
            call: Call::Show,
            lines: bytes.chain(numbers.map(ToString::to_string)).collect(),
        });
    }

    pub fn stdin(&self) -> Vec<u8> {
        let calls = self.made.iter().map(|made| made.call.stdin());
        [
            &word(self.lent.floor.len())[..],
            &self.lent.floor,
            &counted(&self.lent.table),
            &counted(&self.lent.governing),
            &word(self.made.len()),
            &calls.collect::<Vec<_>>().concat(),
        ]
        .concat()
    }

    pub fn stdout(&self) -> String {
        self.made.iter().map(Made::text).collect()
    }
}
