//! The frames of a clear floor: of each line its spans with their sections, and its supports.

use super::BAR_HEADS;
use crate::judge::{Bars, Moments, Schedule, Section};
use crate::way::Way;
use floor::Floor;

pub struct Frame {
    pub way: Way,
    pub name: String,
    /// The name, and which way the spans go.
    pub title: String,
    /// Of the columns that the bars stand in, where there are bars.
    pub bar_heads: &'static [&'static str],
    pub spans: Vec<Span>,
    pub supports: Vec<Support>,
}

pub struct Span {
    pub number: usize,
    /// In mm.
    pub length: u32,
    /// Mo, in N·m.
    pub whole: u32,
    pub rows: [Row; 3],
}

pub struct Row {
    pub section: String,
    pub steel: &'static str,
    pub moments: Section,
    /// Column strip, middle strip.
    pub bars: Option<[Bars; 2]>,
}

pub struct Support {
    pub number: usize,
    /// The line that crosses there.
    pub at: String,
    pub steel: &'static str,
    pub moments: Section,
}

/// Negative moments stretch the top of the slab, the positive one between them its bottom.
const TOP: &str = "top";
const BOTTOM: &str = "bottom";

/// What the library has of a clear floor.
#[derive(Clone, Copy)]
pub struct Found<'a> {
    pub floor: &'a Floor,
    pub moments: &'a Moments<'a>,
    pub schedule: Option<&'a Schedule>,
}

/// Every x line, then every y line.
pub fn frames(found: Found) -> Vec<Frame> {
    let lines = |way: Way| (0..way.lines(found.floor)).map(move |line| (way, line));
    let all = lines(Way::X).chain(lines(Way::Y));
    all.map(|(way, line)| frame(found, way, line)).collect()
}

fn frame(found: Found, way: Way, line: usize) -> Frame {
    let Found {
        floor,
        moments,
        schedule,
    } = found;
    let spans = way.spans(floor).len();
    let supports = 0..=spans;
    let name = name(floor, way, line);
    let [low, high] = way.ends();
    Frame {
        way,
        title: format!("{name}: spans from {low} to {high}"),
        name,
        bar_heads: schedule.map_or(&[], |_| &BAR_HEADS),
        spans: (0..spans)
            .map(|number| span(found, way, line, number))
            .collect(),
        supports: supports
            .map(|number| Support {
                number,
                at: format!("{} line {number}", way.across().name()),
                steel: TOP,
                moments: moments.support(way, line, number),
            })
            .collect(),
    }
}

fn name(floor: &Floor, way: Way, line: usize) -> String {
    let last = way.lines(floor) - 1;
    let [first_edge, last_edge] = way.across().ends();
    let edge = match line {
        0 => format!(", {first_edge} edge"),
        line if line == last => format!(", {last_edge} edge"),
        _ => String::new(),
    };
    format!("{} line {line}{edge}", way.name())
}

fn span(found: Found, way: Way, line: usize, number: usize) -> Span {
    let moments = found.moments.span(way, line, number);
    let bars = found
        .schedule
        .map(|schedule| schedule.span(found.floor, way, line, number));
    let [from, to] = way.ends();
    let row = |at: usize, section: String, steel| Row {
        section,
        steel,
        moments: moments.sections[at],
        bars: bars.map(|bars| bars[at]),
    };
    Span {
        number,
        length: way.spans(found.floor)[number],
        whole: moments.whole,
        rows: [
            row(0, format!("{from} end"), TOP),
            row(1, "between".to_string(), BOTTOM),
            row(2, format!("{to} end"), TOP),
        ],
    }
}
