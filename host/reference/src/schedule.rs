//! "Bar schedule." (02, Five), its depths by "The default depth." (02, Six)

use crate::floor_file::{records_of_kind, sizes};
use crate::frame::{x_frames, y_frames, Frame};
use crate::layout::{x_lines, y_lines, Line};
use crate::refusals::{refusal, SUCCESS};
use crate::span::Span;
use crate::steel::{minimum_is_met, moment_is_carried, strain_is_kept, Query};
use crate::stiffness::frame_width;
use crate::strips::column_strip_width;
use crate::table::{record_count, x_record, y_record};
use crate::verdict::verdict;

/// "record number in the table, section (0 low end, 1 between, 2 high end), strip (0 column, 1 middle), width, moment,
/// area, bar diameter, spacing"
#[derive(Clone, Copy, Debug, PartialEq, Eq)]
pub struct Entry {
    pub record: u128,
    pub section: u128,
    pub strip: u128,
    pub width: u128,
    pub moment: u128,
    pub area: u128,
    pub diameter: u128,
    pub spacing: u128,
}

/// "records of 32 bytes without a header"
pub const BYTES: usize = 32;

/// "Every section of every span appears once for each strip": three sections, two strips.
pub const OF_A_SPAN: u128 = 6;

/// Those of 12 by 12 bays: 13·12 spans of x frames and as many of y frames, 312, of six records of 32 bytes each.
pub const ALWAYS_SUFFICE: usize = 59_904;

impl Entry {
    /// "eight 32-bit numbers"
    pub fn numbers(self) -> [u32; 8] {
        let in_32_bits = |number| u32::try_from(number).expect("moments of the table and less");
        [
            self.record,
            self.section,
            self.strip,
            self.width,
            self.moment,
            self.area,
            self.diameter,
            self.spacing,
        ]
        .map(in_32_bits)
    }

    /// "little-endian"
    pub fn bytes(self) -> [u8; BYTES] {
        let bytes = self.numbers().map(u32::to_le_bytes).concat();
        bytes.try_into().expect("eight numbers of four bytes")
    }
}

/// "Column strip width is wc, less the beam's width on an inside line, less half of it, rounded up, on an outer line".
/// A line without a beam has the width 0.
///
/// Signed, since a wide beam on a short span leaves less than nothing.
pub fn column_width(wc: u128, line: Line) -> i128 {
    let taken = match line.outer {
        false => line.width,
        true => line.width.div_ceil(2),
    };
    wc as i128 - taken as i128
}

/// "middle strip width is W less wc"
pub fn middle_width(frame_width: u128, wc: u128) -> i128 {
    frame_width as i128 - wc as i128
}

#[derive(Clone, Copy, Debug, PartialEq, Eq)]
pub struct Bar {
    pub diameter: u128,
    pub area: u128,
}

const fn bar(diameter: u128, area: u128) -> Bar {
    Bar { diameter, area }
}

/// "Bars are 10, 12 or 16 mm with areas 79, 113 and 201 mm²."
pub const BARS: [Bar; 3] = [bar(10, 79), bar(12, 113), bar(16, 201)];

/// "Spacing is the largest multiple of 10 mm, at least 80 and at most 2t, for which bar area times width is at least
/// area times spacing": every multiple is tried.
pub fn spacing(bar: Bar, width: u128, area: u128, t: u128) -> Option<u128> {
    let multiples = (80..=2 * t).step_by(10);
    multiples
        .filter(|spacing| bar.area * width >= area * spacing)
        .max()
}

/// "The smallest bar that allows a spacing is taken." The bars are tried in order, and the answer is the bar's diameter
/// and its spacing.
pub fn bar_and_spacing(width: u128, area: u128, t: u128) -> Option<(u128, u128)> {
    for bar in BARS {
        if let Some(spacing) = spacing(bar, width, area, t) {
            return Some((bar.diameter, spacing));
        }
    }
    None
}

/// "The area is the steel answer for that moment and width", at the depth of the strip's frame: `steel::answer`,
/// without trying every area.
///
/// The first area to stop at is the least that has enough steel or strains too little. From there on each stops too.
/// An area past the strain limit has only such above it, and so has one that meets the minimum. Where the strain is
/// kept, 10·As·fy is at most 51·1190/22400 = 2.7 times fc·b·d, below half of 17·fc·b·d: up to there
/// As·(17·fc·b·d − 10·As·fy) grows with As, and a larger area carries more.
pub fn least_area(query: Query) -> Option<u128> {
    let stops = |area| {
        let enough = minimum_is_met(query, area) && moment_is_carried(query, area);
        enough || !strain_is_kept(query, area)
    };
    let mut stopping = 1;
    while !stops(stopping) {
        stopping *= 2;
    }
    // Every area below `going` goes on, and `stopping` stops.
    let mut going = 0;
    while going < stopping {
        let between = (going + stopping) / 2;
        match stops(between) {
            true => stopping = between,
            false => going = between + 1,
        }
    }
    strain_is_kept(query, stopping).then_some(stopping)
}

/// "17, a strip width of 0 or less, no steel area that fits, or no bar that allows a spacing"
#[derive(Clone, Copy, Debug, PartialEq, Eq, PartialOrd, Ord)]
pub enum Lack {
    Width,
    Area,
    Bar,
}

/// A strip of one section, before its bars are chosen.
#[derive(Clone, Copy, Debug, PartialEq, Eq)]
struct Strip {
    record: u128,
    section: u128,
    strip: u128,
    width: i128,
    moment: u128,
    /// As the steel query has it: t − 26 or 0, see `strips`.
    d: u128,
}

/// The strips of one span: "Every section of every span appears once for each strip, in that order."
fn strips_of_span(frame: &Frame, line: Line, span: usize, record: u128, d: u128) -> Vec<Strip> {
    let wc = column_strip_width(frame.spans[span], frame.adjoining);
    let column_width = column_width(wc, line);
    let middle_width = middle_width(frame_width(frame.adjoining), wc);
    let mut strips = Vec::new();
    for (number, section) in (0..).zip(Span::of(frame, span).sections()) {
        // "The moment is the slab part for the column strip and the middle part for the other"
        let column = (0, column_width, section.slab);
        let middle = (1, middle_width, section.middle);
        for (strip, width, moment) in [column, middle] {
            strips.push(Strip {
                record,
                section: number,
                strip,
                width,
                moment,
                d,
            });
        }
    }
    strips
}

/// The frames of a direction with their lines, each span with the record that it has in the table, all at one depth.
fn strips_of_frames(
    frames: Vec<Frame>,
    lines: Vec<Line>,
    record: impl Fn(u128, u128) -> u128,
    d: u128,
) -> Vec<Strip> {
    let mut strips = Vec::new();
    for (number, (frame, line)) in (0..).zip(frames.iter().zip(lines)) {
        for span in 0..frame.spans.len() {
            let record = record(number, span as u128);
            strips.extend(strips_of_span(frame, line, span, record, d));
        }
    }
    strips
}

/// By rising record, as the x frames come first in the table.
///
/// "Callers that meant the first layer pass t − 26 themselves. In the schedule these are the x frames .. y frames keep
/// 0" (02, Six).
fn strips(floor: &[u8]) -> Vec<Strip> {
    let sizes = sizes(floor);
    let first_layer = sizes.t - 26;
    let of_x = |line, span| x_record(sizes, line, span);
    let of_y = |line, span| y_record(sizes, line, span);
    [
        strips_of_frames(x_frames(floor), x_lines(floor), of_x, first_layer),
        strips_of_frames(y_frames(floor), y_lines(floor), of_y, 0),
    ]
    .concat()
}

/// The strip with its bars, in this slab.
fn with_bars(strip: Strip, t: u128, fc: u128, fy: u128) -> Result<Entry, Lack> {
    if strip.width <= 0 {
        return Err(Lack::Width);
    }
    let width = strip.width as u128;
    // In range: on a clear floor M is at most 1,879,200,000, and no frame is wider than 12,000.
    let area = least_area(Query {
        m: strip.moment,
        b: width,
        t,
        d: strip.d,
        fc,
        fy,
    });
    let area = area.ok_or(Lack::Area)?;
    let (diameter, spacing) = bar_and_spacing(width, area, t).ok_or(Lack::Bar)?;
    Ok(Entry {
        record: strip.record,
        section: strip.section,
        strip: strip.strip,
        width,
        moment: strip.moment,
        area,
        diameter,
        spacing,
    })
}

/// Of a clear floor, each strip with its bars or what it lacks, in the order of the schedule.
pub fn each(floor: &[u8]) -> Vec<Result<Entry, Lack>> {
    let t = sizes(floor).t;
    let materials = records_of_kind(floor, 2)[0];
    let strips = strips(floor).into_iter();
    strips
        .map(|strip| with_bars(strip, t, materials.a, materials.b))
        .collect()
}

/// The schedule of a clear floor, `None` where 17 applies.
pub fn entries(floor: &[u8]) -> Option<Vec<Entry>> {
    each(floor).into_iter().collect::<Result<_, _>>().ok()
}

/// How many bytes the schedule of a floor that is not refused has.
pub fn length(floor: &[u8]) -> usize {
    BYTES * (OF_A_SPAN * record_count(sizes(floor))) as usize
}

/// "15, schedule buffer too short; 16, verdict not 0; 17, .. Order: 1 to 7, 16, 15, 17."
///
/// Answers the refusal and how many entries there are. "A refused schedule writes nothing", and "what lies past any
/// other output in its lent buffer" stays (01).
pub fn schedule(floor: &[u8], lent: &mut [u8]) -> (u128, u128) {
    let refused = refusal(floor);
    if refused != SUCCESS {
        return (refused, 0);
    }
    if verdict(floor) != 0 {
        return (16, 0);
    }
    if lent.len() < length(floor) {
        return (15, 0);
    }
    let Some(entries) = entries(floor) else {
        return (17, 0);
    };
    let bytes: Vec<u8> = entries.iter().flat_map(|entry| entry.bytes()).collect();
    lent[..bytes.len()].copy_from_slice(&bytes);
    (SUCCESS, entries.len() as u128)
}
