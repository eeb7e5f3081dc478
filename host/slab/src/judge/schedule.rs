//! The bar schedule of a floor, as the library writes it.

use super::order;
use crate::way::Way;
use floor::Floor;

/// "records of 32 bytes without a header" (02, Five)
pub const RECORD_BYTES: usize = 32;

/// "width, moment, area, bar diameter, spacing", of one strip of a section: in mm, N·cm, mm², mm, mm.
#[derive(Clone, Copy, Debug, PartialEq, Eq)]
pub struct Bars {
    pub width: u32,
    pub moment: u32,
    pub area: u32,
    pub diameter: u32,
    pub spacing: u32,
}

impl Bars {
    fn read(record: &[u8]) -> Bars {
        let (words, _) = record.as_chunks();
        let number = |which: usize| u32::from_le_bytes(words[which]);
        Bars {
            width: number(3),
            moment: number(4),
            area: number(5),
            diameter: number(6),
            spacing: number(7),
        }
    }
}

pub struct Schedule {
    bytes: Vec<u8>,
}

impl Schedule {
    /// The number of the refusal where there is no schedule. There is room for that of any floor, so that refusal 15 never arises.
    pub fn of(file: &[u8]) -> Result<Schedule, u32> {
        let mut bytes = vec![0; gandhrumil::SCHEDULE_LEN];
        let answer = gandhrumil::schedule(file, &mut bytes);
        if answer.refusal != 0 {
            return Err(answer.refusal);
        }
        bytes.truncate(RECORD_BYTES * answer.value as usize);
        Ok(Schedule { bytes })
    }

    /// The file for the yard.
    pub fn bytes(&self) -> &[u8] {
        &self.bytes
    }

    pub fn records(&self) -> usize {
        self.bytes.len() / RECORD_BYTES
    }

    /// Of low end, between and high end: column strip, middle strip.
    pub fn span(&self, floor: &Floor, way: Way, line: usize, span: usize) -> [[Bars; 2]; 3] {
        let first = 6 * order::record(floor, way, line, span);
        let bars = |number: usize| Bars::read(&self.bytes[RECORD_BYTES * number..][..RECORD_BYTES]);
        [0, 2, 4].map(|section| [0, 1].map(|strip| bars(first + section + strip)))
    }
}
