//! Which strips of a clear floor cannot be barred, by the library's answers: the schedule of the same floor under the least loads has the
//! widths, the floor's own table the moments, and a steel query at the depth of their bars says of each pair whether an area fits.

use super::units::kn_m_of_n_cm;
use super::{frames, layers, Found, Frame, Row};
use crate::judge::{Bars, Held, Schedule};
use crate::way::Way;
use floor::Floor;
use gandhrumil::Query;

/// So many are named one by one.
const MOST_NAMED: usize = 4;

/// "Bars are 10, 12 or 16 mm with areas 79, 113 and 201 mm²", spaced "at least 80" (02, Five).
const LARGEST_BAR: u64 = 201;
const CLOSEST: u64 = 80;

/// Of a floor whose schedule is refused 17.
pub fn lines(held: &Held) -> Vec<String> {
    let floor = held.floor();
    let least = Floor {
        dead: 1_000,
        live: 0,
        ..floor.clone()
    };
    let Ok(schedule) = Schedule::of(&least.bytes()) else {
        let line = "under the least loads, dead 1000 and live 0, it is so too: look for a wide beam beside short spans";
        return vec![line.to_string()];
    };
    let moments = held.moments();
    let frames = frames(Found {
        floor: &floor,
        moments: &moments.expect("no floor but a clear one is refused 17"),
        schedule: Some(&schedule),
    });
    let mut lines: Vec<String> = frames
        .iter()
        .flat_map(|frame| of_frame(&floor, frame))
        .collect();
    let more = lines.len().saturating_sub(MOST_NAMED);
    lines.truncate(MOST_NAMED);
    if more > 0 {
        lines.push(format!("and {more} more"));
    }
    lines
}

fn of_frame(floor: &Floor, frame: &Frame) -> Vec<String> {
    let mut lines = Vec::new();
    for span in &frame.spans {
        for row in &span.rows {
            for (strip, width, moment) in strips(row) {
                let Some(why) = why(floor, frame.way, width, moment) else {
                    continue;
                };
                let (name, number, section) = (&frame.name, span.number, &row.section);
                let moment = kn_m_of_n_cm(moment);
                lines.push(format!(
                    "{name}, span {number}, {section}, {strip} strip of {width} mm with {moment} kN·m: {why}"
                ));
            }
        }
    }
    lines
}

/// Name, width and moment: the slab part for the column strip, the middle part for the other.
fn strips(row: &Row) -> Vec<(&'static str, u32, u32)> {
    let [_, _, middle, _, slab] = row.moments;
    let named = [("column", slab), ("middle", middle)];
    let bars = row.bars.iter().flatten();
    let strips = bars.zip(named);
    strips
        .map(|(Bars { width, .. }, (strip, moment))| (strip, *width, moment))
        .collect()
}

/// Nothing where it can be barred.
fn why(floor: &Floor, way: Way, width: u32, moment: u32) -> Option<String> {
    let Floor { t, fc, fy, .. } = *floor;
    let d = layers::asked_depth(way, t);
    let [m, b, t, d, fc, fy] = [moment, width, t, d, fc, fy].map(u64::from);
    let answer = gandhrumil::steel(Query { m, b, t, d, fc, fy });
    let area = answer.value;
    match answer.refusal {
        0 if LARGEST_BAR * b >= u64::from(area) * CLOSEST => None,
        0 => Some(format!(
            "{area} mm² needed, more than bars of 16 mm @ 80 have"
        )),
        _ => Some("no steel area fits".to_string()),
    }
}
