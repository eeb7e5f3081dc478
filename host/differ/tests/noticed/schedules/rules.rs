//! A schedule over the library's openings and steel queries, by rules of which any one can be made wrong.

use crate::clear::answer;
use cases::places::Along;
use floor::Floor;
use gandhrumil::{Answer, Query};

/// "record number in the table, section, strip, width, moment, area, bar diameter, spacing"
pub type Record = [u32; 8];

/// Total, column, middle, beam, slab.
type Section = [u32; 5];

/// "Bars are 10, 12 or 16 mm with areas 79, 113 and 201 mm²."
const BARS: [(u32, u32); 3] = [(10, 79), (12, 113), (16, 201)];

#[derive(Clone, Copy)]
pub struct Rules {
    /// In which 15, 16 and 17 are tried.
    pub order: [u32; 3],
    /// How much of the beam's width is taken from the column strip of a line that is an outer one or not.
    pub taken: fn(u32, bool) -> u32,
    /// The moment of a strip.
    pub moment: fn(Section, usize) -> u32,
    /// The effective depths that steel is asked for in this slab, of x frames and of y frames.
    pub depths: fn(u32) -> [u32; 2],
    /// Of a bar's area, by width, area and slab.
    pub spacing: fn(u32, u32, u32, u32) -> Option<u32>,
}

pub const RIGHT: Rules = Rules {
    order: [16, 15, 17],
    taken: |b, outer| if outer { b.div_ceil(2) } else { b },
    moment: |[_, _, middle, _, slab], strip| [slab, middle][strip],
    depths: |t| [t - 26, 0],
    spacing: |bar, width, area, t| largest_spacing(bar, width, area, 80, 2 * t),
};

/// The largest multiple of 10 from the least to the most that the bar allows.
pub fn largest_spacing(bar: u32, width: u32, area: u32, least: u32, most: u32) -> Option<u32> {
    let allowed = (bar * width).checked_div(area).unwrap_or(most);
    let spacing = allowed.min(most) / 10 * 10;
    (spacing >= least).then_some(spacing)
}

/// A span, and what is beside it.
struct Span {
    along: Along,
    w: u32,
    wc: u32,
    beam: u32,
    outer: bool,
}

/// Those of the x frames, or with x and y changed round those of the y frames, as `along` says.
fn x_spans(floor: &Floor, along: Along) -> Vec<Span> {
    let last = floor.y_spans.len();
    let mut spans = Vec::new();
    for (line, &(beam, _)) in floor.x_lines.iter().enumerate() {
        let outer = line == 0 || line == last;
        let beside = &floor.y_spans[line.saturating_sub(1)..last.min(line + 1)];
        let past = if outer { floor.cy / 2 } else { 0 };
        for &l1 in &floor.x_spans {
            let quarters = beside.iter().map(|&span| span.min(l1) / 4);
            spans.push(Span {
                along,
                w: beside.iter().sum::<u32>() / 2 + past,
                wc: quarters.sum::<u32>() + past,
                beam,
                outer,
            });
        }
    }
    spans
}

impl Rules {
    /// In their order, `None` where a strip cannot be barred.
    fn each(self, floor: &Floor, table: &[u32]) -> Vec<Option<Record>> {
        let mut spans = x_spans(floor, Along::X);
        spans.extend(x_spans(&floor.transposed(), Along::Y));
        let mut records = Vec::new();
        for (number, span) in spans.iter().enumerate() {
            for section in 0..3 {
                let start = 16 * number + 1 + 5 * section;
                let five: Section = table[start..start + 5].try_into().unwrap();
                for strip in 0..2 {
                    let place = [number, section, strip].map(|number| number as u32);
                    records.push(self.record(floor, span, place, (self.moment)(five, strip)));
                }
            }
        }
        records
    }

    fn record(self, floor: &Floor, span: &Span, place: [u32; 3], moment: u32) -> Option<Record> {
        let Floor { t, fc, fy, .. } = *floor;
        let [record, section, strip] = place;
        let column = span.wc.checked_sub((self.taken)(span.beam, span.outer));
        let width = [column?, span.w - span.wc][strip as usize];
        let depth = (self.depths)(t)[span.along as usize];
        let [m, b, t64, d, fc, fy] = [moment, width, t, depth, fc, fy].map(u64::from);
        let query = Query {
            m,
            b,
            t: t64,
            d,
            fc,
            fy,
        };
        let Answer { refusal: 0, value } = gandhrumil::steel(query) else {
            return None;
        };
        let (diameter, spacing) = BARS.iter().find_map(|&(diameter, bar)| {
            let spacing = (self.spacing)(bar, width, value, t)?;
            Some((diameter, spacing))
        })?;
        Some([
            record, section, strip, width, moment, value, diameter, spacing,
        ])
    }
}

fn opened(floor: &[u8]) -> (Answer, Vec<u32>) {
    let (mut table, mut governing) = (vec![0; 4_992], vec![0; 1_690]);
    let answer = gandhrumil::open(floor, &mut table, &mut governing);
    (answer, table)
}

pub fn by(rules: Rules, floor: &[u8], lent: &mut [u8]) -> Answer {
    let (opened, table) = opened(floor);
    if opened.refusal != 0 {
        return answer(opened.refusal, 0);
    }
    let each = rules.each(&Floor::of(floor).unwrap(), &table);
    let too_short = lent.len() < size_of::<Record>() * each.len();
    let records: Option<Vec<Record>> = each.into_iter().collect();
    let applies = |refusal: &u32| match refusal {
        15 => too_short,
        16 => opened.value != 0,
        _ => records.is_none(),
    };
    match (rules.order.into_iter().find(applies), &records) {
        (None, Some(records)) => {
            let written = bytes(records);
            lent[..written.len()].copy_from_slice(&written);
            answer(0, records.len() as u32)
        }
        (refusal, _) => answer(refusal.unwrap(), 0),
    }
}

/// Of a clear floor, those before the first that cannot be barred.
pub fn until_unbarred(floor: &[u8]) -> Vec<Record> {
    let each = RIGHT.each(&Floor::of(floor).unwrap(), &opened(floor).1);
    each.into_iter().map_while(|record| record).collect()
}

pub fn read(bytes: &[u8]) -> Record {
    let (words, _) = bytes.as_chunks();
    std::array::from_fn(|which| u32::from_le_bytes(words[which]))
}

pub fn bytes(records: &[Record]) -> Vec<u8> {
    let numbers = records.iter().flatten();
    numbers.flat_map(|number| number.to_le_bytes()).collect()
}
