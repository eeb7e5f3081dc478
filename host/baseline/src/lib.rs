//! The rules of 01, requests One to Six of 02 and the list of broken places beyond them, in plain Rust written for
//! speed: what the proved library is timed against.
//!
//! The seven calls are the library's. Each reads the floor's bytes once into fixed arrays and works from
//! these; nothing is kept between calls. Every number of 01 fits 64 bits.

mod change;
mod clear;
mod file;
mod floor;
mod frames;
mod governing;
mod judge;
mod lines;
mod places;
mod schedule;
mod steel;
mod strips;
mod thickness;
mod verdict;

pub use steel::{steel, Query};

use floor::Floor;
use frames::Spans;
use judge::Layout;
use lines::Stiffness;
use places::Place;
use verdict::verdict;

/// "A refused opening or change gives verdict 255"
const REFUSED: u32 = 255;

/// A refusal's number with 255 or 0 beside it, or 0 with what was asked.
#[derive(Clone, Copy, Debug, PartialEq, Eq)]
pub struct Answer {
    pub refusal: u32,
    pub value: u32,
}

impl Answer {
    fn of(answer: Result<u32, u32>, refused: u32) -> Answer {
        match answer {
            Ok(value) => Answer { refusal: 0, value },
            Err(refusal) => Answer {
                refusal,
                value: refused,
            },
        }
    }
}

/// The records and the supports of a floor, in the slices that are lent.
struct Lent<'a> {
    table: &'a mut [[u32; 16]],
    governing: &'a mut [[u32; 5]],
}

impl<'a> Lent<'a> {
    fn of(floor: &Floor, table: &'a mut [u32], governing: &'a mut [u32]) -> Result<Lent<'a>, u32> {
        let (records, _) = table.as_chunks_mut();
        let (supports, _) = governing.as_chunks_mut();
        Ok(Lent {
            // 8: "lent table shorter than 16·((ny+1)nx+(nx+1)ny) numbers"
            table: records.get_mut(..floor.records()).ok_or(8u32)?,
            // 13: "the slice is too short, tried right after 8"
            governing: supports.get_mut(..2 * floor.columns()).ok_or(13u32)?,
        })
    }

    /// "Verdict not 0: all of them are 0."
    fn clear(self) {
        self.table.fill([0; 16]);
        self.governing.fill([0; 5]);
    }

    fn fill(self, floor: &Floor, layout: Layout, stiffness: &Stiffness, spans: Spans) {
        frames::fill(self.table, floor, layout, stiffness, spans);
        governing::fill(self.governing, self.table, floor, spans);
    }
}

/// Opens a floor and fills its table, and the governing moments beside it.
pub fn open(floor: &[u8], table: &mut [u32], governing: &mut [u32]) -> Answer {
    Answer::of(opened(floor, table, governing), REFUSED)
}

fn opened(bytes: &[u8], table: &mut [u32], governing: &mut [u32]) -> Result<u32, u32> {
    let floor = file::read(bytes)?;
    let layout = judge::judge(&floor)?;
    let lent = Lent::of(&floor, table, governing)?;
    let stiffness = Stiffness::of(&floor);
    let verdict = verdict(&floor, layout, &stiffness);
    if verdict == 0 {
        lent.fill(&floor, layout, &stiffness, Spans::All);
    } else {
        lent.clear();
    }
    Ok(verdict)
}

/// Changes one record of a floor, and with it its table and the governing moments.
pub fn change(floor: &mut [u8], table: &mut [u32], governing: &mut [u32], change: &[u8]) -> Answer {
    Answer::of(change::changed(floor, table, governing, change), REFUSED)
}

/// The least thickness of the panel of x bay `x` and y bay `y`.
pub fn panel(floor: &[u8], x: u64, y: u64) -> Answer {
    Answer::of(panel_thickness(floor, x, y), 0)
}

fn panel_thickness(bytes: &[u8], x: u64, y: u64) -> Result<u32, u32> {
    let floor = file::read(bytes)?;
    let layout = judge::judge(&floor)?;
    // 10: "no such panel"
    let [nx, ny] = floor.bays;
    if x >= nx as u64 || y >= ny as u64 {
        return Err(10);
    }
    Ok(thickness::least(&floor, layout, x as usize, y as usize))
}

/// Whether a floor is clear: 1 yes, 0 no.
pub fn clear(floor: &[u8]) -> Answer {
    Answer::of(yes_or_no(floor), 0)
}

/// "There is no table here, so only 1 to 7 are tried." (02, Four)
fn yes_or_no(bytes: &[u8]) -> Result<u32, u32> {
    let floor = file::read(bytes)?;
    let layout = judge::judge(&floor)?;
    Ok(clear::clear(&floor, layout).into())
}

/// Every place where a limit is broken, four numbers each: limit, direction, i, j.
pub fn places(floor: &[u8], places: &mut [u32]) -> Answer {
    Answer::of(listed(floor, places), 0)
}

/// "A refusal writes nothing": where not every floor's places would fit, they are listed apart first.
fn listed(bytes: &[u8], places: &mut [u32]) -> Result<u32, u32> {
    let floor = file::read(bytes)?;
    let layout = judge::judge(&floor)?;
    let (lent, _): (&mut [Place], _) = places.as_chunks_mut();
    if lent.len() >= places::most(&floor) {
        return Ok(places::list(&floor, layout, lent) as u32);
    }
    let mut apart = [Place::default(); places::MOST];
    let count = places::list(&floor, layout, &mut apart);
    // 25: "the slice is too short for this floor's places"
    let lent = lent.get_mut(..count).ok_or(25u32)?;
    lent.copy_from_slice(&apart[..count]);
    Ok(count as u32)
}

/// The bar schedule, eight numbers for each strip of each section: record, section, strip, width, moment, area, bar
/// diameter, spacing.
pub fn schedule(floor: &[u8], schedule: &mut [u8]) -> Answer {
    Answer::of(scheduled(floor, schedule), 0)
}

/// "Order: 1 to 7, 16, 15, 17. A refused schedule writes nothing." (02, Five)
fn scheduled(bytes: &[u8], schedule: &mut [u8]) -> Result<u32, u32> {
    let floor = file::read(bytes)?;
    let layout = judge::judge(&floor)?;
    let stiffness = Stiffness::of(&floor);
    // 16: "verdict not 0"
    if verdict(&floor, layout, &stiffness) != 0 {
        return Err(16);
    }
    // 15: "schedule buffer too short"
    let (lent, _) = schedule.as_chunks_mut();
    let lent = lent.get_mut(..schedule::count(&floor)).ok_or(15u32)?;
    let entries = schedule::entries(&floor, layout, &stiffness).ok_or(17u32)?;
    schedule::write(&entries, lent);
    Ok(entries.len() as u32)
}
