//! A floor, its table and its governing moments, which the library keeps together.

use super::moments::Moments;
use floor::{Floor, Record};

/// Sixteen numbers for each of the (ny+1)nx + (nx+1)ny spans of 12 by 12 bays, so that refusal 8 never arises.
const LARGEST_TABLE: usize = 16 * 2 * 13 * 12;

/// Five numbers for each of the (ny+1)(nx+1) + (nx+1)(ny+1) supports, so that refusal 13 never arises.
const LARGEST_GOVERNING: usize = 5 * 2 * 13 * 13;

pub struct Held {
    file: Vec<u8>,
    verdict: u32,
    table: Vec<u32>,
    governing: Vec<u32>,
}

impl Held {
    /// The number of the refusal where the floor is not accepted.
    pub fn open(file: &[u8]) -> Result<Held, u32> {
        let (mut table, mut governing) = (vec![0; LARGEST_TABLE], vec![0; LARGEST_GOVERNING]);
        let answer = gandhrumil::open(file, &mut table, &mut governing);
        match answer.refusal {
            0 => Ok(Held {
                file: file.to_vec(),
                verdict: answer.value,
                table,
                governing,
            }),
            refused => Err(refused),
        }
    }

    /// The number of the refusal where the change is not taken, and then all is as it was.
    pub fn change(&mut self, change: Record) -> Result<(), u32> {
        let Held {
            file,
            table,
            governing,
            ..
        } = self;
        let answer = gandhrumil::change(file, table, governing, &change.bytes());
        if answer.refusal != 0 {
            return Err(answer.refusal);
        }
        self.verdict = answer.value;
        Ok(())
    }

    pub fn file(&self) -> &[u8] {
        &self.file
    }

    pub fn floor(&self) -> Floor {
        Floor::of(&self.file).expect("an accepted floor is laid out as 01 lists it")
    }

    pub fn verdict(&self) -> u32 {
        self.verdict
    }

    /// None unless the floor is clear.
    pub fn moments(&self) -> Option<Moments<'_>> {
        (self.verdict == 0).then(|| Moments::of(self.floor(), &self.table, &self.governing))
    }
}
