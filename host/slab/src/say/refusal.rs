//! A refusal in words.

use super::{culprits, sentences};
use crate::given::Given;
use floor::{Record, RECORD_BYTES};

/// `refused 3: ...`
pub fn sentence(number: u32) -> String {
    match sentences::refusal(number) {
        Some(reason) => format!("refused {number}: {reason}"),
        None => format!("refused {number}"),
    }
}

/// In the place of the bars, on the sheet of a clear floor whose schedule is refused.
pub fn no_bars(number: u32) -> String {
    let reason = sentences::refusal(number).expect("a refusal of schedules");
    format!("No bars are shown. Refused {number}: {reason}.")
}

/// The sentence, then what to look at.
pub fn page(number: u32, given: &Given) -> String {
    let Given { file, length, .. } = given;
    let look = match number {
        1 => vec![format!("the file has {length} bytes")],
        2 => vec![first_record(file)],
        3 => {
            let records = length / RECORD_BYTES as u64;
            vec![
                first_record(file),
                format!("the file has {records} records"),
            ]
        }
        5 => culprits::out_of_range(file),
        6 => culprits::too_short_for_columns(file),
        7 => culprits::beams(file),
        _ => Vec::new(),
    };
    let mut page = sentence(number) + "\n";
    for line in look {
        page += &format!("  {line}\n");
    }
    page
}

/// As it stands in a file of 16 bytes or more.
fn first_record(file: &[u8]) -> String {
    let Record {
        kind,
        index,
        fields: [nx, ny, t],
    } = Record::all(file)[0];
    format!("the first record: kind {kind}, index {index}, {nx} by {ny} bays, slab {t} mm")
}
