//! Libraries that schedule other bars, at other depths, try their refusals in another order, or write where they must not (02, Five and Six).

mod rules;

use crate::clear::answer;
use crate::{assert_noticed, noticed_in_floors, FLOORS};
use cases::draw::Draw;
use differ::case::Case;
use differ::job::{Calls, Job, Schedule, LIBRARY};
use differ::schedules;
use differ::tally::Tally;
use gandhrumil::{Answer, SCHEDULE_LEN};
use reference::floor_file::sizes;
use reference::schedule::BYTES;
use rules::{by, largest_spacing, Record, Rules, RIGHT};

/// The right library, but that it has other records of a floor.
fn with_records(
    floor: &[u8],
    lent: &mut [u8],
    alter: impl FnOnce(Vec<Record>) -> Vec<Record>,
) -> Answer {
    let right = gandhrumil::schedule(floor, lent);
    if right.refusal == 0 {
        let written = &mut lent[..BYTES * right.value as usize];
        let records = written.chunks(BYTES).map(rules::read).collect();
        written.copy_from_slice(&rules::bytes(&alter(records)));
    }
    right
}

fn each(floor: &[u8], lent: &mut [u8], alter: impl Fn(&mut Record)) -> Answer {
    with_records(floor, lent, |mut records| {
        records.iter_mut().for_each(alter);
        records
    })
}

fn a_step_wider(floor: &[u8], lent: &mut [u8]) -> Answer {
    each(floor, lent, |record| record[7] += 10)
}

/// "at most 2t"
fn below_2t(floor: &[u8], lent: &mut [u8]) -> Answer {
    let most = 2 * sizes(floor_or_garage(floor)).t as u32;
    each(floor, lent, |record| {
        record[7] = record[7].min((most - 10) / 10 * 10)
    })
}

/// The sizes of a floor that is refused are not asked for.
fn floor_or_garage(floor: &[u8]) -> &[u8] {
    match gandhrumil::clear(floor).refusal {
        0 => floor,
        _ => &FLOORS[0].bytes,
    }
}

fn largest_bar(floor: &[u8], lent: &mut [u8]) -> Answer {
    let t = sizes(floor_or_garage(floor)).t as u32;
    each(floor, lent, |record| {
        let [.., width, _, area, diameter, spacing] = record;
        (*diameter, *spacing) = (16, largest_spacing(201, *width, *area, 80, 2 * t).unwrap());
    })
}

fn in_pairs(floor: &[u8], lent: &mut [u8], alter: fn(&mut [Record])) -> Answer {
    with_records(floor, lent, |mut records| {
        records.chunks_mut(2).for_each(alter);
        records
    })
}

fn middle_strip_first(floor: &[u8], lent: &mut [u8]) -> Answer {
    in_pairs(floor, lent, |pair| pair.swap(0, 1))
}

fn areas_exchanged(floor: &[u8], lent: &mut [u8]) -> Answer {
    in_pairs(floor, lent, |pair| {
        (pair[0][5], pair[1][5]) = (pair[1][5], pair[0][5]);
    })
}

/// All sections of the column strip, then those of the middle strip.
fn strip_by_strip(floor: &[u8], lent: &mut [u8]) -> Answer {
    with_records(floor, lent, |mut records| {
        records.sort_by_key(|&[record, section, strip, ..]| [record, strip, section]);
        records
    })
}

fn high_end_first(floor: &[u8], lent: &mut [u8]) -> Answer {
    each(floor, lent, |record| record[1] = 2 - record[1])
}

/// Records counted anew for the y frames.
fn records_of_a_direction(floor: &[u8], lent: &mut [u8]) -> Answer {
    let sizes = sizes(floor_or_garage(floor));
    let of_x = (sizes.nx * (sizes.ny + 1)) as u32;
    each(floor, lent, |record| record[0] %= of_x)
}

fn big_endian(floor: &[u8], lent: &mut [u8]) -> Answer {
    each(floor, lent, |record| *record = record.map(u32::swap_bytes))
}

#[test]
fn wrong_records() {
    let wrong: [Schedule; 9] = [
        a_step_wider,
        below_2t,
        largest_bar,
        middle_strip_first,
        areas_exchanged,
        strip_by_strip,
        high_end_first,
        records_of_a_direction,
        big_endian,
    ];
    wrong.into_iter().for_each(assert_noticed_schedule);
}

#[track_caller]
fn assert_noticed_schedule(schedule: Schedule) {
    let calls = Calls {
        schedule,
        ..LIBRARY
    };
    assert_noticed("floors", calls, ": schedule, ");
    let noticed = noticed_in_floors(calls);
    assert!(noticed.contains(": schedule, "), "{noticed}");
}

macro_rules! of_rules {
    ($($name:ident: $rules:expr;)*) => {$(
        fn $name(floor: &[u8], lent: &mut [u8]) -> Answer {
            by($rules, floor, lent)
        }
    )*};
}

of_rules! {
    right: RIGHT;
    room_before_the_verdict: Rules { order: [15, 16, 17], ..RIGHT };
    bars_before_room: Rules { order: [16, 17, 15], ..RIGHT };
    bars_before_the_verdict: Rules { order: [17, 16, 15], ..RIGHT };
    half_a_beam_rounded_down: Rules {
        taken: |b, outer| if outer { b / 2 } else { b },
        ..RIGHT
    };
    whole_beam_on_an_outer_line: Rules { taken: |b, _| b, ..RIGHT };
    half_a_beam_inside: Rules { taken: |b, _| b.div_ceil(2), ..RIGHT };
    no_beam_taken: Rules { taken: |_, _| 0, ..RIGHT };
    beam_with_its_moment: Rules {
        moment: |[_, column, middle, ..], strip| [column, middle][strip],
        ..RIGHT
    };
    total_for_the_middle_strip: Rules {
        moment: |[total, _, _, _, slab], strip| [slab, total][strip],
        ..RIGHT
    };
    bars_at_70: Rules {
        spacing: |bar, width, area, t| largest_spacing(bar, width, area, 70, 2 * t),
        ..RIGHT
    };
    bars_at_90: Rules {
        spacing: |bar, width, area, t| largest_spacing(bar, width, area, 90, 2 * t),
        ..RIGHT
    };
    never_just_enough: Rules {
        spacing: |bar, width, area, t| {
            let mut spacings = (80..=2 * t).rev().filter(|spacing| spacing % 10 == 0);
            spacings.find(|spacing| bar * width > area * spacing)
        },
        ..RIGHT
    };
    x_frames_by_default: Rules { depths: |_| [0, 0], ..RIGHT };
    y_frames_in_the_first_layer: Rules { depths: |t| [t - 26, t - 26], ..RIGHT };
    layers_exchanged: Rules { depths: |t| [0, t - 26], ..RIGHT };
    x_frames_a_mm_deeper: Rules { depths: |t| [t - 25, 0], ..RIGHT };
    x_frames_a_mm_less_deep: Rules { depths: |t| [t - 27, 0], ..RIGHT };
    y_frames_a_mm_deeper: Rules { depths: |t| [t - 26, t - 37], ..RIGHT };
    y_frames_a_mm_less_deep: Rules { depths: |t| [t - 26, t - 39], ..RIGHT };
}

/// A default that still stands for t − 26 leaves the y frames in the first layer, and one of t − 37 makes them a mm deeper.
#[test]
fn wrong_depths() {
    let wrong: [Schedule; 7] = [
        x_frames_by_default,
        y_frames_in_the_first_layer,
        layers_exchanged,
        x_frames_a_mm_deeper,
        x_frames_a_mm_less_deep,
        y_frames_a_mm_deeper,
        y_frames_a_mm_less_deep,
    ];
    wrong.into_iter().for_each(assert_noticed_schedule);
}

#[test]
fn wrong_rules() {
    let wrong: [Schedule; 12] = [
        room_before_the_verdict,
        bars_before_room,
        bars_before_the_verdict,
        half_a_beam_rounded_down,
        whole_beam_on_an_outer_line,
        half_a_beam_inside,
        no_beam_taken,
        beam_with_its_moment,
        total_for_the_middle_strip,
        bars_at_70,
        bars_at_90,
        never_just_enough,
    ];
    wrong.into_iter().for_each(assert_noticed_schedule);
}

/// So the rules above are wrong for what they say, and for nothing else.
#[test]
fn the_rules_are_right_otherwise() {
    let job = Job {
        calls: Calls {
            schedule: right,
            ..LIBRARY
        },
        ..Job::of_the_library(1)
    };
    let mut tally = Tally::default();
    let mut case = Case {
        job: &job,
        draw: Draw::starting_at(job.seed),
        tally: &mut tally,
    };
    for floor in FLOORS.iter() {
        let lent = case.lend(&floor.bytes);
        let compared = schedules::compare(&mut case, &floor.bytes, &lent);
        compared.unwrap_or_else(|words| panic!("{}: {words}", floor.description));
    }
}

/// Where a later one cannot be barred.
fn first_record_written(floor: &[u8], lent: &mut [u8]) -> Answer {
    let right = gandhrumil::schedule(floor, lent);
    if right.refusal == 17 {
        let barred = rules::until_unbarred(floor);
        let first = rules::bytes(&barred[..barred.len().min(1)]);
        lent[..first.len()].copy_from_slice(&first);
    }
    right
}

fn written_until_unbarred(floor: &[u8], lent: &mut [u8]) -> Answer {
    let right = gandhrumil::schedule(floor, lent);
    if right.refusal == 17 {
        let barred = rules::bytes(&rules::until_unbarred(floor));
        lent[..barred.len()].copy_from_slice(&barred);
    }
    right
}

/// What there is room for.
fn written_though_too_short(floor: &[u8], lent: &mut [u8]) -> Answer {
    let right = gandhrumil::schedule(floor, lent);
    if right.refusal == 15 {
        let mut all = vec![0; SCHEDULE_LEN];
        gandhrumil::schedule(floor, &mut all);
        lent.copy_from_slice(&all[..lent.len()]);
    }
    right
}

fn cleared_where_not_clear(floor: &[u8], lent: &mut [u8]) -> Answer {
    let right = gandhrumil::schedule(floor, lent);
    if right.refusal == 16 {
        lent.fill(0);
    }
    right
}

fn tail_touched(floor: &[u8], lent: &mut [u8]) -> Answer {
    let right = gandhrumil::schedule(floor, lent);
    if let Some(past) = lent.get_mut(BYTES * right.value as usize) {
        *past ^= u8::from(right.refusal == 0);
    }
    right
}

fn a_byte_short_suffices(floor: &[u8], lent: &mut [u8]) -> Answer {
    let mut all = vec![0; SCHEDULE_LEN];
    let right = gandhrumil::schedule(floor, &mut all);
    if right.refusal == 0 && lent.len() + 1 == BYTES * right.value as usize {
        lent.copy_from_slice(&all[..lent.len()]);
        return right;
    }
    gandhrumil::schedule(floor, lent)
}

#[test]
fn wrong_bytes() {
    let wrong: [Schedule; 6] = [
        first_record_written,
        written_until_unbarred,
        written_though_too_short,
        cleared_where_not_clear,
        tail_touched,
        a_byte_short_suffices,
    ];
    wrong.into_iter().for_each(assert_noticed_schedule);
}

fn no_value(floor: &[u8], lent: &mut [u8]) -> Answer {
    answer(gandhrumil::schedule(floor, lent).refusal, 0)
}

fn records_of_the_table(floor: &[u8], lent: &mut [u8]) -> Answer {
    let right = gandhrumil::schedule(floor, lent);
    answer(right.refusal, right.value / 6)
}

fn value_of_a_refusal(floor: &[u8], lent: &mut [u8]) -> Answer {
    let right = gandhrumil::schedule(floor, lent);
    match right.refusal {
        17 => answer(17, 255),
        _ => right,
    }
}

/// The steel query's own number.
fn no_area_is_12(floor: &[u8], lent: &mut [u8]) -> Answer {
    let right = gandhrumil::schedule(floor, lent);
    match right.refusal {
        17 => answer(12, 0),
        _ => right,
    }
}

#[test]
fn wrong_answers() {
    let wrong: [Schedule; 4] = [
        no_value,
        records_of_the_table,
        value_of_a_refusal,
        no_area_is_12,
    ];
    wrong.into_iter().for_each(assert_noticed_schedule);
}
