//! What becomes of a change, in words.

use super::limits::broken;
use super::{records, refusal};
use floor::{Floor, Record};

/// With the broken limits below, and not their places.
pub fn taken(verdict: u32) -> String {
    if verdict == 0 {
        return "taken, clear\n".to_string();
    }
    let limits: String = broken(verdict).map(|limit| limit.line()).collect();
    format!("taken, not clear, verdict {verdict}\n{limits}")
}

/// Below 5 stands the record: the floor was accepted before, so the value that is out of range is in it.
pub fn refused(number: u32, floor: &Floor, record: &Record) -> String {
    let sentence = refusal::sentence(number);
    match number {
        5 => format!("{sentence}\n  {}\n", records::with_range(floor, record)),
        _ => format!("{sentence}\n"),
    }
}
