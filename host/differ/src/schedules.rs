//! The bar schedule of a floor, asked for on a lent buffer of any bytes.

use crate::case::Case;
use crate::lent::Lent;
use crate::same::same_answer;
use crate::tally::{BarSort, Scheduled, Slice, Tally};
use cases::draw::Draw;
use cases::floors::long::garbage;
use reference::floor_file::{records_of_kind, sizes, Sizes};
use reference::refusals::{refusal, SUCCESS};
use reference::schedule::{
    each, least_area, length, schedule, Entry, ALWAYS_SUFFICE, BARS, BYTES, OF_A_SPAN,
};
use reference::steel::Query;
use std::collections::BTreeSet;

/// How many bytes are lent where so many are asked for: as many, fewer, more, none, or what always suffices.
fn lent_length(draw: &mut Draw, asked: usize) -> usize {
    let less = |bytes| asked.saturating_sub(bytes);
    match draw.between(1, 100) {
        1..=40 => asked,
        41..=52 => less(1),
        53..=56 => draw.one_of(&[1, asked / 2, less(BYTES)]),
        57..=60 => 0,
        61..=98 => asked + draw.between(1, 70),
        _ => ALWAYS_SUFFICE,
    }
}

/// What a buffer of some length is to a clear floor that asks for so many bytes.
fn buffer(length: usize, asked: usize) -> Slice {
    match length {
        0 => Slice::Empty,
        _ if length == asked => Slice::Exact,
        _ if length + 1 == asked => Slice::OneShort,
        _ if length < asked => Slice::Shorter,
        ALWAYS_SUFFICE => Slice::AlwaysSuffices,
        _ => Slice::Longer,
    }
}

pub fn compare(case: &mut Case, floor: &[u8], lent: &Lent<u8>) -> Result<(), String> {
    let asked = match refusal(floor) {
        SUCCESS => length(floor),
        _ => case.draw.between(0, 300),
    };
    let length = lent_length(&mut case.draw, asked);
    let mut right_bytes = garbage(&mut case.draw, length);
    let mut bytes = case.lend(&right_bytes);
    let answer = (case.job.calls.schedule)(lent.numbers(), bytes.numbers_mut());
    let right = schedule(floor, &mut right_bytes);
    same_answer(answer, right)
        .and_then(|()| lent.holds("floor", floor))
        .and_then(|()| bytes.holds("schedule", &right_bytes))
        .map_err(|words| format!("schedule, {length} bytes lent: {words}"))?;
    case.tally.schedule_addresses.add(bytes.address());
    if [SUCCESS, 15, 17].contains(&right.0) {
        case.tally.buffers.add(buffer(length, asked));
    }
    count(case.tally, floor, right.0);
    Ok(())
}

fn count(tally: &mut Tally, floor: &[u8], refused: u128) {
    let scheduled = match refused {
        SUCCESS => {
            let entries: Vec<Entry> = each(floor).into_iter().flatten().collect();
            let mut sorts = sorts(sizes(floor).t, &entries);
            sorts.extend(layers(floor, &entries));
            sorts.into_iter().for_each(|sort| tally.bars.add(sort));
            Scheduled::Written
        }
        17 => {
            let each = each(floor);
            let barred = each.iter().take_while(|one| one.is_ok()).count();
            let lack = each.into_iter().find_map(Result::err);
            tally.lacks.add(lack.expect("a strip without bars"));
            match barred {
                0 => Scheduled::FirstUnbarred,
                _ if barred < of_x_frames(floor) => Scheduled::LaterUnbarred,
                _ => Scheduled::UnbarredAlongY,
            }
        }
        _ => Scheduled::Refused(refused),
    };
    tally.schedules.add(scheduled);
}

/// Each that is met, once.
fn sorts(t: u128, entries: &[Entry]) -> BTreeSet<BarSort> {
    let widest = 2 * t / 10 * 10;
    let mut sorts = BTreeSet::new();
    for entry in entries {
        let bar = BARS.iter().find(|bar| bar.diameter == entry.diameter);
        let bar = bar.expect("a bar of 02");
        sorts.insert(BarSort::Of(entry.diameter));
        if entry.spacing == 80 {
            sorts.insert(BarSort::Closest);
        }
        if entry.spacing == widest {
            sorts.insert(BarSort::Widest);
        }
        if bar.area * entry.width == entry.area * entry.spacing {
            sorts.insert(BarSort::Exact);
        }
    }
    sorts
}

/// How many entries of a schedule are of x frames, which come first.
fn of_x_frames(floor: &[u8]) -> usize {
    let Sizes { nx, ny, .. } = sizes(floor);
    (OF_A_SPAN * nx * (ny + 1)) as usize
}

/// Whether a mm of depth less tells in the areas of x frames, and a mm more in those of y frames.
fn layers(floor: &[u8], entries: &[Entry]) -> Vec<BarSort> {
    let (along_x, along_y) = entries.split_at(of_x_frames(floor));
    let sorts = [
        (BarSort::FirstLayer, told_from(floor, along_x, 27)),
        (BarSort::SecondLayer, told_from(floor, along_y, 37)),
    ];
    let told = sorts.into_iter().filter(|(_, told)| *told);
    told.map(|(sort, _)| sort).collect()
}

/// Whether some area is another at a depth of t less so many mm.
fn told_from(floor: &[u8], entries: &[Entry], less: u128) -> bool {
    let t = sizes(floor).t;
    let materials = records_of_kind(floor, 2)[0];
    let at_depth = |entry: &Entry| {
        least_area(Query {
            m: entry.moment,
            b: entry.width,
            t,
            d: t - less,
            fc: materials.a,
            fy: materials.b,
        })
    };
    entries
        .iter()
        .any(|entry| at_depth(entry) != Some(entry.area))
}
