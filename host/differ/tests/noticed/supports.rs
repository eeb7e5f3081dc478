//! Right tables, and wrong governing moments beside them.

use crate::{assert_noticed, assert_noticed_in_runs, spoil_first};
use differ::job::{Calls, Change, Open, LIBRARY};
use gandhrumil::Answer;
use reference::floor_file::{sizes, Record};
use reference::governing::{self, supports, supports_next_to, Face, Support};
use reference::named::named;
use reference::table;
use reference::verdict::judge;

/// What a change that was taken has left.
struct Taken<'a> {
    floor: &'a [u8],
    table: &'a [u32],
    /// The records that it wrote.
    records: Vec<u128>,
}

/// All records, or those named where the verdict is clear before and after.
fn written(before: &[u8], after: u32, change: &[u8]) -> Vec<u128> {
    let Record { kind, index, .. } = Record::read(change);
    match (judge(before).1, after) {
        (0, 0) => named(kind, index, sizes(before)),
        _ => (0..table::record_count(sizes(before))).collect(),
    }
}

/// The right library, but for the supports that it writes: these by another rule, or not at all.
fn change_by(
    (floor, table, governing, change): (&mut [u8], &mut [u32], &mut [u32], &[u8]),
    rule: fn(&Support, &Taken) -> Option<Face>,
) -> Answer {
    let (floor_before, slice_before) = (floor.to_vec(), governing.to_vec());
    let answer = gandhrumil::change(floor, table, governing, change);
    if answer.refusal != 0 {
        return answer;
    }
    let taken = Taken {
        records: written(&floor_before, answer.value, change),
        floor,
        table,
    };
    for support in supports_next_to(sizes(taken.floor), &taken.records) {
        let place = governing::place(support.number);
        match rule(&support, &taken) {
            Some(face) => governing[place].copy_from_slice(&face),
            None => governing[place.clone()].copy_from_slice(&slice_before[place]),
        }
    }
    answer
}

fn higher_on_a_tie(support: &Support, table: &[u32]) -> Face {
    match support.faces(table)[..] {
        [lower, higher] if higher[0] >= lower[0] => higher,
        _ => support.governing(table),
    }
}

/// Of each of the five numbers the larger.
fn parts_of_both_faces(support: &Support, table: &[u32]) -> Face {
    match support.faces(table)[..] {
        [lower, higher] => std::array::from_fn(|number| lower[number].max(higher[number])),
        _ => support.governing(table),
    }
}

/// The support at the low end of a written record; where all are written, every one.
fn at_the_low_end_alone(support: &Support, taken: &Taken) -> Option<Face> {
    let count = table::record_count(sizes(taken.floor));
    let all = taken.records.len() as u128 == count;
    let low_end = support
        .higher_span
        .is_some_and(|span| taken.records.contains(&span));
    (all || low_end).then(|| support.governing(taken.table))
}

/// The faces as they should be, and not as the table has them.
fn from_a_right_table(support: &Support, taken: &Taken) -> Option<Face> {
    Some(support.governing(&table::numbers(taken.floor)))
}

fn change_with_the_higher_face_on_a_tie(
    floor: &mut [u8],
    table: &mut [u32],
    governing: &mut [u32],
    change: &[u8],
) -> Answer {
    change_by((floor, table, governing, change), |support, taken| {
        Some(higher_on_a_tie(support, taken.table))
    })
}

fn change_with_parts_of_both_faces(
    floor: &mut [u8],
    table: &mut [u32],
    governing: &mut [u32],
    change: &[u8],
) -> Answer {
    change_by((floor, table, governing, change), |support, taken| {
        Some(parts_of_both_faces(support, taken.table))
    })
}

fn change_of_supports_at_the_low_end_alone(
    floor: &mut [u8],
    table: &mut [u32],
    governing: &mut [u32],
    change: &[u8],
) -> Answer {
    change_by((floor, table, governing, change), at_the_low_end_alone)
}

fn change_of_supports_from_a_right_table(
    floor: &mut [u8],
    table: &mut [u32],
    governing: &mut [u32],
    change: &[u8],
) -> Answer {
    change_by((floor, table, governing, change), from_a_right_table)
}

fn change_of_no_support(
    floor: &mut [u8],
    table: &mut [u32],
    governing: &mut [u32],
    change: &[u8],
) -> Answer {
    change_by((floor, table, governing, change), |_, _| None)
}

fn change_of_every_support(
    floor: &mut [u8],
    table: &mut [u32],
    governing: &mut [u32],
    change: &[u8],
) -> Answer {
    let answer = gandhrumil::change(floor, table, governing, change);
    if answer.refusal == 0 {
        governing::write(&supports(sizes(floor)), table, governing);
    }
    answer
}

fn change_that_writes_the_slice_though_it_refuses(
    floor: &mut [u8],
    table: &mut [u32],
    governing: &mut [u32],
    change: &[u8],
) -> Answer {
    let answer = gandhrumil::change(floor, table, governing, change);
    if answer.refusal != 0 {
        spoil_first(governing);
    }
    answer
}

#[test]
fn wrong_supports_of_changes() {
    let wrong: [Change; 7] = [
        change_with_the_higher_face_on_a_tie,
        change_with_parts_of_both_faces,
        change_of_supports_at_the_low_end_alone,
        change_of_supports_from_a_right_table,
        change_of_no_support,
        change_of_every_support,
        change_that_writes_the_slice_though_it_refuses,
    ];
    for change in wrong {
        assert_noticed("changes", Calls { change, ..LIBRARY }, ": governing: at ");
        assert_noticed_in_runs(change, ": governing: at ");
    }
}

fn open_by(
    (floor, table, governing): (&[u8], &mut [u32], &mut [u32]),
    rule: fn(&Support, &[u32]) -> Face,
) -> Answer {
    let answer = gandhrumil::open(floor, table, governing);
    if answer.refusal == 0 {
        for support in supports(sizes(floor)) {
            let place = governing::place(support.number);
            governing[place].copy_from_slice(&rule(&support, table));
        }
    }
    answer
}

fn open_with_the_higher_face_on_a_tie(
    floor: &[u8],
    table: &mut [u32],
    governing: &mut [u32],
) -> Answer {
    open_by((floor, table, governing), higher_on_a_tie)
}

fn open_with_parts_of_both_faces(floor: &[u8], table: &mut [u32], governing: &mut [u32]) -> Answer {
    open_by((floor, table, governing), parts_of_both_faces)
}

#[test]
fn wrong_supports_of_openings() {
    let wrong: [Open; 2] = [
        open_with_the_higher_face_on_a_tie,
        open_with_parts_of_both_faces,
    ];
    for open in wrong {
        let words = "opening: governing: at ";
        assert_noticed("floors", Calls { open, ..LIBRARY }, words);
    }
}
