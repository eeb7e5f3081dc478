//! The bar schedule as text, for a person: of every strip its width, moment, area of steel and bars.

use super::units::kn_m_of_n_cm;
use super::{facts, frames, layers, Found, Frame, Row, Span};
use crate::judge::{Bars, Held, Schedule};

const NOTES: &str =
    "Bars: diameter @ spacing in mm. Area: what all bars of the strip together must have at least. \
     The column strip is its slab, beside the beam. Moments in kN·m, rounded up to the next 0.01. \
     Top and bottom say where in the slab the steel lies. Lines and spans count from 0; \
     x lines run west to east, y lines south to north.";

const HEADS: [&str; 7] = [
    "section",
    "steel",
    "strip",
    "width, mm",
    "moment, kN·m",
    "area, mm²",
    "bars",
];

/// In the library's order.
const STRIPS: [&str; 2] = ["column", "middle"];

/// Of a clear floor, with the name that it is called by.
pub fn text(name: &str, held: &Held, schedule: &Schedule) -> String {
    let floor = held.floor();
    let moments = held.moments();
    let frames = frames(Found {
        floor: &floor,
        moments: &moments.expect("no floor but a clear one has a schedule"),
        schedule: Some(schedule),
    });
    let mut lines = vec![
        format!("{name}: bar schedule, {} records", schedule.records()),
        facts(&floor),
        format!("{NOTES} {}", layers::note(floor.t)),
    ];
    lines.extend(frames.iter().flat_map(frame));
    lines.iter().map(|line| format!("{line}\n")).collect()
}

fn frame(frame: &Frame) -> Vec<String> {
    let mut lines = vec![String::new(), frame.title.clone()];
    lines.extend(frame.spans.iter().flat_map(span));
    lines
}

fn span(span: &Span) -> Vec<String> {
    let Span { number, length, .. } = span;
    let mut lines = vec![
        format!("  span {number}, {length} mm"),
        row(HEADS.map(str::to_string)),
    ];
    lines.extend(span.rows.iter().flat_map(strips));
    lines
}

fn strips(of: &Row) -> Vec<String> {
    let bars = of.bars.iter().flatten();
    let strips = STRIPS.iter().zip(bars);
    strips
        .map(|(strip, bars)| {
            let Bars {
                width,
                moment,
                area,
                diameter,
                spacing,
            } = bars;
            row([
                of.section.clone(),
                of.steel.to_string(),
                strip.to_string(),
                width.to_string(),
                kn_m_of_n_cm(*moment),
                area.to_string(),
                format!("{diameter} mm @ {spacing}"),
            ])
        })
        .collect()
}

fn row([section, steel, strip, width, moment, area, bars]: [String; 7]) -> String {
    format!("    {section:<15}{steel:<8}{strip:<8}{width:>9}{moment:>14}{area:>11}  {bars}")
}
