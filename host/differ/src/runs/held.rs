//! A held floor with its lent table and its governing slice, as the library has them and as the reference
//! has them.

use crate::case::Case;
use crate::clear;
use crate::lent::Lent;
use crate::panels;
use crate::places;
use crate::same::same_answer;
use crate::schedules;
use crate::tally::{Before, Step, Tally};
use cases::draw::Draw;
use cases::runs::ties;
use floor::Record;
use gandhrumil::Answer;
use reference::floor_file::sizes;
use reference::refusals::SUCCESS;
use reference::verdict::{judge, REFUSED};
use reference::{governing, held, opening, table};

pub struct Held {
    lent_floor: Lent<u8>,
    lent_table: Lent<u32>,
    lent_governing: Lent<u32>,
    pub floor: Vec<u8>,
    table: Vec<u32>,
    governing: Vec<u32>,
    /// Of the floor as it is; 255 where it is refused.
    pub verdict: u128,
    /// Whether the table is known to be what opening would make it.
    table_is_right: bool,
    /// Whether ties await the next change.
    ties: bool,
}

impl Held {
    pub fn new(case: &mut Case, floor: Vec<u8>, table: Vec<u32>, governing: Vec<u32>) -> Held {
        Held {
            lent_floor: case.lend(&floor),
            lent_table: case.lend(&table),
            lent_governing: case.lend(&governing),
            verdict: judge(&floor).1,
            floor,
            table,
            governing,
            table_is_right: false,
            ties: false,
        }
    }

    pub fn open(&mut self, case: &mut Case) -> Result<(), String> {
        let answer = (case.job.calls.open)(
            self.lent_floor.numbers(),
            self.lent_table.numbers_mut(),
            self.lent_governing.numbers_mut(),
        );
        let right = opening::open(&self.floor, &mut self.table, &mut self.governing);
        self.table_is_right = right.0 == SUCCESS;
        let same = self.same(answer, right);
        same.map_err(|words| format!("opening: {words}"))?;
        self.clear(case)?;
        self.places(case)
    }

    /// Answers whether the change is taken, where library and reference are at one.
    pub fn change(&mut self, case: &mut Case, change: &[u8]) -> Result<bool, String> {
        let lent = case.lend(change);
        let before = self.before();
        let answer = (case.job.calls.change)(
            self.lent_floor.numbers_mut(),
            self.lent_table.numbers_mut(),
            self.lent_governing.numbers_mut(),
            lent.numbers(),
        );
        let (floor, table) = (&mut self.floor, &mut self.table);
        let right = held::change(floor, table, &mut self.governing, change);
        self.same(answer, right)?;
        lent.holds("change", change)?;
        case.tally.change_addresses.add(lent.address());
        self.count(case.tally, change, before, right);
        let (refused, after) = right;
        if refused == SUCCESS {
            self.table_is_right |= all_is_written((self.verdict, after), change);
            self.verdict = after;
        }
        self.ties = false;
        self.clear(case)?;
        self.places(case)?;
        Ok(refused == SUCCESS)
    }

    fn clear(&self, case: &mut Case) -> Result<(), String> {
        clear::compare(case, &self.floor, &self.lent_floor)
    }

    fn places(&self, case: &mut Case) -> Result<(), String> {
        places::compare(case, &self.floor, &self.lent_floor)
    }

    /// What takes long, at the end of a run.
    pub fn panels_and_schedule(&self, case: &mut Case) -> Result<(), String> {
        panels::compare(case, &self.floor, &self.lent_floor)?;
        schedules::compare(case, &self.floor, &self.lent_floor)
    }

    /// Any numbers in place of a stretch of the table, or of the slice, in both.
    pub fn spoil(&mut self, case: &mut Case) {
        if case.draw.percent(40) {
            spoil_stretch(&mut case.draw, &mut self.governing, 5);
            self.lent_governing
                .numbers_mut()
                .copy_from_slice(&self.governing);
        } else {
            let spoilt = spoil_stretch(&mut case.draw, &mut self.table, 16);
            self.lent_table.numbers_mut().copy_from_slice(&self.table);
            self.table_is_right &= !spoilt;
        }
    }

    /// Numbers in the table such that the change makes ties, in both.
    pub fn plant_ties(&mut self, case: &mut Case, change: &[u8]) {
        if !self.is_lent_enough() {
            return;
        }
        let planted = ties::plant(&mut case.draw, &self.floor, &mut self.table, change);
        self.lent_table.numbers_mut().copy_from_slice(&self.table);
        self.ties = planted > 0;
        self.table_is_right &= !self.ties;
    }

    /// Whether none of 1 to 8 and 13 applies.
    fn is_lent_enough(&self) -> bool {
        self.verdict != REFUSED && {
            let sizes = sizes(&self.floor);
            self.table.len() >= table::length(sizes)
                && self.governing.len() >= governing::length(sizes)
        }
    }

    fn before(&self) -> Before {
        let slice_agrees = self.is_lent_enough() && {
            let from_table = governing::numbers(sizes(&self.floor), &self.table);
            self.governing.starts_with(&from_table)
        };
        Before {
            table_is_right: self.table_is_right,
            slice_agrees,
            ties: self.ties,
        }
    }

    /// The answer, the whole floor, the whole table and the whole slice with their tails.
    fn same(&self, answer: Answer, right: (u128, u128)) -> Result<(), String> {
        same_answer(answer, right)?;
        self.lent_floor.holds("floor", &self.floor)?;
        self.lent_table.holds("table", &self.table)?;
        self.lent_governing.holds("governing", &self.governing)
    }

    fn count(
        &self,
        tally: &mut Tally,
        change: &[u8],
        before: Before,
        (refused, after): (u128, u128),
    ) {
        let step = match (refused, self.verdict, after) {
            (SUCCESS, 0, 0) => Step::KeptClear,
            (SUCCESS, 0, _) => Step::Broke,
            (SUCCESS, _, 0) => Step::Mended,
            (SUCCESS, _, _) => Step::StayedBroken,
            _ => Step::Refused(refused),
        };
        tally.changes.add(step);
        tally.before.add(before);
        if step == Step::KeptClear {
            let kind = Record::read(change).kind;
            tally.kept_clear.add((kind, before));
        }
    }
}

/// Answers whether there was a number to spoil.
fn spoil_stretch(draw: &mut Draw, numbers: &mut [u32], in_a_record: usize) -> bool {
    let end = numbers.len();
    let start = draw.between(0, end);
    let count = draw.one_of(&[1, in_a_record, end]);
    let stretch = start..end.min(start + count);
    numbers[stretch.clone()].fill_with(|| draw.number());
    !stretch.is_empty()
}

/// "If the verdict before or after is not 0, the whole table is written." "Kind 3: all."
fn all_is_written(verdicts: (u128, u128), change: &[u8]) -> bool {
    verdicts != (0, 0) || Record::read(change).kind == 3
}
