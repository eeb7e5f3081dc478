//! Changes after which the two faces of some support have the same total and other parts: "the lower
//! span's on a tie". One of the faces is of a record that the change writes, the other of one that it
//! leaves wrong.

use super::changes::any_index;
use super::changes::taken::clear_change_of;
use super::clear;
use super::tables::{governing, table, Held};
use super::Run;
use crate::draw::Draw;
use crate::floors::LAYOUTS;
use floor::Record;
use reference::change;
use reference::floor_file::sizes;
use reference::governing::{supports_next_to, Support, HIGH_END, LOW_END};
use reference::named::named;
use reference::refusals::SUCCESS;
use reference::table::{numbers, place};
use std::ops::Range;

/// Where in the table the face of a span at one of its ends stands.
fn face(record: u128, end: Range<usize>) -> Range<usize> {
    let start = place(record).start;
    start + end.start..start + end.end
}

/// The face in a record that is written and the one beside it that is not, where a support has both.
fn written_and_left(support: &Support, written: &[u128]) -> Option<(Range<usize>, Range<usize>)> {
    let (lower, higher) = (support.lower_span?, support.higher_span?);
    let faces = (face(lower, HIGH_END), face(higher, LOW_END));
    match (written.contains(&lower), written.contains(&higher)) {
        (true, false) => Some(faces),
        (false, true) => Some((faces.1, faces.0)),
        _ => None,
    }
}

/// Puts numbers into the table such that the change, taken with a clear verdict before and after, makes
/// ties. Answers how many.
pub fn plant(draw: &mut Draw, floor: &[u8], table: &mut [u32], bytes: &[u8]) -> usize {
    let (refused, changed) = change::change(floor, bytes);
    if refused != SUCCESS {
        return 0;
    }
    let Record { kind, index, .. } = Record::read(bytes);
    let written = named(kind.into(), index.into(), sizes(floor));
    let right = numbers(&changed);
    let supports = supports_next_to(sizes(floor), &written);
    let faces = supports
        .iter()
        .map(|support| written_and_left(support, &written));
    let mut planted = 0;
    for (written, left) in faces.flatten() {
        table[left.clone()].fill_with(|| draw.number());
        table[left.start] = right[written.start];
        planted += 1;
    }
    planted
}

/// Of each kind that writes records and leaves others beside them.
pub fn runs() -> Vec<Run> {
    let mut draw = Draw::starting_at(19);
    let mut runs = Vec::new();
    for number in 0..24 {
        let (layout, words) = LAYOUTS[number % 3];
        let kind = [5, 6, 7, 8][number / 3 % 4];
        let (nx, ny) = (draw.between(3, 6), draw.between(3, 6));
        let floor = clear::floor(&mut draw, nx, ny, layout);
        let index = match kind {
            // Beams on inner lines write whole lines, and leave nothing beside them.
            7 | 8 => 0,
            _ => any_index(&mut draw, &floor, kind),
        };
        let change = clear_change_of(&mut draw, &floor, kind, index);
        let mut table = table(&mut draw, &floor, Held::Right, 2);
        assert!(plant(&mut draw, &floor, &mut table, &change) > 0);
        runs.push(Run {
            description: format!("ties {number}, kind {kind}, {nx}x{ny}, {words}"),
            opens: false,
            governing: governing(&mut draw, &floor, &table, Held::Right, 2),
            table,
            changes: vec![change],
            floor,
        });
    }
    runs
}
