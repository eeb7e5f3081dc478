//! A change of one record, and refusal 9.

use crate::file::{self, fields, RECORD};
use crate::floor::{Floor, X, Y};
use crate::frames::Spans;
use crate::judge::judge;
use crate::lines::Stiffness;
use crate::verdict::verdict;
use crate::Lent;

/// "A change tries 1 to 7 on the held floor, 9, then 5 to 7 on the changed floor, then 8", and 13 right after
/// it.
pub fn changed(
    bytes: &mut [u8],
    table: &mut [u32],
    governing: &mut [u32],
    change: &[u8],
) -> Result<u32, u32> {
    let held = file::read(bytes)?;
    let held_layout = judge(&held)?;
    let mut floor = held;
    let (kind, index) = put(&mut floor, change).ok_or(9u32)?;
    let layout = judge(&floor)?;
    let lent = Lent::of(&floor, table, governing)?;
    let before = verdict(&held, held_layout, &Stiffness::of(&held));
    let stiffness = Stiffness::of(&floor);
    let after = verdict(&floor, layout, &stiffness);
    bytes[position(&floor, kind, index)..][..RECORD].copy_from_slice(change);
    // "If the verdict before or after is not 0, the whole table is written."
    if after != 0 {
        lent.clear();
    } else {
        let spans = if before != 0 {
            Spans::All
        } else {
            named(kind, index)
        };
        lent.fill(&floor, layout, &stiffness, spans);
    }
    Ok(after)
}

/// 9: "a change is not 16 bytes, not of kind 3 or 5..9, has an index the floor lacks, or an unlisted field not
/// zero". Answers kind and index.
fn put(floor: &mut Floor, change: &[u8]) -> Option<(u32, usize)> {
    let (head, values) = fields(change.try_into().ok()?);
    let (kind, index) = (head & 0xffff, (head >> 16) as usize);
    let listed = matches!(kind, 3 | 5..=9) && index < floor.count(kind);
    (listed && floor.put(kind, index, values) == 0).then_some((kind, index))
}

/// Where in the file the record starts.
fn position(floor: &Floor, kind: u32, index: usize) -> usize {
    let before: usize = (1..kind).map(|kind| floor.count(kind)).sum();
    RECORD * (before + index)
}

/// "What a change may write"
fn named(kind: u32, index: usize) -> Spans {
    match kind {
        3 => Spans::All,
        5 => Spans::Bay { way: X, bay: index },
        6 => Spans::Bay { way: Y, bay: index },
        7 => Spans::Line {
            way: X,
            line: index,
        },
        8 => Spans::Line {
            way: Y,
            line: index,
        },
        _ => Spans::None,
    }
}
