//! What holds of every schedule (02, Five and Six): their sentences as properties of what is written, over clear floors
//! that are listed and drawn.

use crate::floors::clear_floors;
use cases::draw::Draw;
use cases::floors::drawn::{self, any_sides, Wanted};
use cases::floors::LAYOUTS;
use floor::Floor;
use reference::schedule::{each, Entry, Lack};
use reference::steel::steel;
use reference::table::numbers;
use std::collections::BTreeMap;

/// What a strip is to be barred for: the widths may be 0 or less.
#[derive(Clone, Copy)]
struct Strip {
    /// Record, section, strip.
    place: [u128; 3],
    width: i64,
    moment: u128,
    layer: Layer,
}

/// "The y bars lie on the x bars" (02, Six).
#[derive(Clone, Copy, Debug, PartialEq, Eq)]
enum Layer {
    First,
    Second,
}

impl Layer {
    /// "0 stands for t − 38, the second layer .. Callers that meant the first layer pass t − 26 themselves."
    fn depth(self, t: u128) -> u128 {
        match self {
            Layer::First => t - 26,
            Layer::Second => t - 38,
        }
    }
}

/// A line: the spans along it, those beside it, its column across and its beam's width. On an outer line one of the
/// spans beside it is 0.
struct Line<'a> {
    along: &'a [u32],
    beside: [u32; 2],
    column: u32,
    beam: u32,
    layer: Layer,
}

impl Line<'_> {
    /// The column strip and the middle strip of a span, from four times wc and twice W.
    fn widths(&self, l1: u32) -> [i64; 2] {
        let [low, high] = self.beside;
        let outer = low == 0 || high == 0;
        let past = if outer { self.column } else { 0 };
        let four_wc = l1.min(low) + l1.min(high) + 2 * past;
        let taken = if outer {
            self.beam.div_ceil(2)
        } else {
            self.beam
        };
        let column = i64::from(four_wc / 4) - i64::from(taken);
        let middle = (2 * (low + high + past) - four_wc) / 4;
        [column, middle.into()]
    }
}

/// In the order of the table: the x lines, then the y lines.
fn lines(floor: &Floor) -> Vec<Line<'_>> {
    let (x, y) = (&floor.x_spans, &floor.y_spans);
    let mut lines = Vec::new();
    for (along, across, beams, column, layer) in [
        (x, y, &floor.x_lines, floor.cy, Layer::First),
        (y, x, &floor.y_lines, floor.cx, Layer::Second),
    ] {
        let span = |number: usize| across.get(number).copied().unwrap_or(0);
        for (number, &(beam, _)) in beams.iter().enumerate() {
            let beside = [span(number.wrapping_sub(1)), span(number)];
            lines.push(Line {
                along,
                beside,
                column,
                beam,
                layer,
            });
        }
    }
    lines
}

/// "Every section of every span appears once for each strip", with the moments that stand in the table.
fn strips(floor: &Floor) -> Vec<Strip> {
    let table = numbers(&floor.bytes());
    let mut records = (0..).zip(table.chunks(16));
    let mut strips = Vec::new();
    for line in lines(floor) {
        for &l1 in line.along {
            let [column, middle] = line.widths(l1);
            let (record, sixteen) = records.next().expect("a record for each span");
            for (section, five) in (0..).zip(sixteen[1..].chunks(5)) {
                for (strip, width, moment) in [(0, column, five[4]), (1, middle, five[2])] {
                    strips.push(Strip {
                        place: [record, section, strip],
                        width,
                        moment: moment.into(),
                        layer: line.layer,
                    });
                }
            }
        }
    }
    strips
}

/// Whether a bar of this area goes at this spacing.
fn goes(bar: u128, spacing: u128, t: u128, entry: &Entry) -> bool {
    spacing >= 80 && spacing <= 2 * t && bar * entry.width >= entry.area * spacing
}

/// "Spacing is the largest multiple of 10 mm": the next one does not go. "The smallest bar that allows a spacing": one
/// that is smaller does not go at 80, the least spacing there is.
fn hold_bars(entry: &Entry, t: u128) {
    let (bar, smaller): (u128, &[u128]) = match entry.diameter {
        10 => (79, &[]),
        12 => (113, &[79]),
        16 => (201, &[79, 113]),
        other => panic!("a bar of {other}"),
    };
    assert!(entry.spacing.is_multiple_of(10), "{entry:?}");
    assert!(goes(bar, entry.spacing, t, entry), "{entry:?}");
    assert!(!goes(bar, entry.spacing + 10, t, entry), "{entry:?}");
    for &bar in smaller {
        assert!(!goes(bar, 80, t, entry), "{entry:?}");
    }
}

/// The steel answer for the strip at a stated depth, which Six leaves as it was.
fn steel_at(strip: Strip, d: u128, floor: &Floor) -> (u128, u128) {
    let [t, fc, fy] = [floor.t, floor.fc, floor.fy].map(u128::from);
    let width = u128::try_from(strip.width).expect("a width above 0");
    steel(strip.moment, width, t, d, fc, fy)
}

fn hold_strip(strip: Strip, found: Result<Entry, Lack>, floor: &Floor) {
    if strip.width <= 0 {
        assert_eq!(found, Err(Lack::Width));
        return;
    }
    let (width, t) = (strip.width as u128, u128::from(floor.t));
    let (refused, area) = steel_at(strip, strip.layer.depth(t), floor);
    match found {
        Ok(entry) => {
            assert_eq!([entry.record, entry.section, entry.strip], strip.place);
            assert_eq!([entry.width, entry.moment], [width, strip.moment]);
            assert_eq!((refused, entry.area), (0, area));
            hold_bars(&entry, t);
        }
        Err(Lack::Area) => assert_eq!(refused, 12),
        Err(Lack::Bar) => assert!(refused == 0 && 201 * width < area * 80),
        Err(Lack::Width) => panic!("a strip of {width} mm"),
    }
}

/// Answers how many strips have which bar, or lack what.
fn hold(floor: &Floor) -> BTreeMap<String, usize> {
    let (strips, found) = (strips(floor), each(&floor.bytes()));
    assert_eq!(found.len(), strips.len());
    let mut sorts = BTreeMap::new();
    for (strip, found) in strips.into_iter().zip(found) {
        hold_strip(strip, found, floor);
        let sort = found.map_or_else(|lack| format!("{lack:?}"), |bar| bar.diameter.to_string());
        *sorts.entry(sort).or_insert(0) += 1;
    }
    sorts
}

fn drawn_floors() -> Vec<Floor> {
    let mut draw = Draw::starting_at(71);
    let mut floors = Vec::new();
    for number in 0..300 {
        let (layout, _) = LAYOUTS[number % 3];
        let wanted = Wanted {
            nx: draw.between(3, 5),
            ny: draw.between(3, 5),
            layout,
            sides: any_sides(&mut draw),
        };
        floors.push(drawn::clear(&mut draw, wanted));
    }
    floors
}

fn listed_floors() -> Vec<Floor> {
    let listed = clear_floors().into_iter();
    listed
        .map(|floor| Floor::of(&floor.bytes).expect("a floor that is taken"))
        .collect()
}

/// Each bar and each lack comes up among both.
#[test]
fn every_schedule() {
    for floors in [listed_floors(), drawn_floors()] {
        let mut sorts = BTreeMap::new();
        for floor in floors {
            for (sort, strips) in hold(&floor) {
                *sorts.entry(sort).or_insert(0) += strips;
            }
        }
        let names = ["10", "12", "16", "Area", "Bar", "Width"];
        assert!(sorts.keys().eq(names), "{sorts:?}");
        assert!(sorts.values().all(|&strips| strips >= 30), "{sorts:?}");
    }
}

/// What Five made of a strip: "the steel answer for that moment and width at d = 0", when 0 stood for t − 26; and with
/// it the first bar, by diameter, that goes at some multiple of 10 mm, at the largest.
fn of_five(strip: Strip, floor: &Floor) -> Result<[u128; 3], Lack> {
    if strip.width <= 0 {
        return Err(Lack::Width);
    }
    let t = u128::from(floor.t);
    let (refused, area) = steel_at(strip, t - 26, floor);
    if refused != 0 {
        return Err(Lack::Area);
    }
    for (diameter, bar) in [(10, 79), (12, 113), (16, 201)] {
        let enough = bar * strip.width as u128 / area;
        let spacing = enough.min(2 * t) / 10 * 10;
        if spacing >= 80 {
            return Ok([area, diameter, spacing]);
        }
    }
    Err(Lack::Bar)
}

/// How a strip of a y frame compares with what Five made of it: never with less steel.
fn against_five(found: Result<[u128; 3], Lack>, five: Result<[u128; 3], Lack>) -> &'static str {
    let (found, five) = match (found, five) {
        (Ok(found), Ok(five)) => (found, five),
        (Err(_), Ok(_)) => return "lacking now",
        (Err(_), Err(_)) => return "lacking as before",
        (Ok(found), Err(lack)) => panic!("{found:?} where Five lacks {lack:?}"),
    };
    assert!(found[0] >= five[0], "{found:?} {five:?}");
    let same = [0, 1, 2].map(|number| found[number] == five[number]);
    match same {
        [true, true, true] => "the same",
        [false, true, true] => "more steel, the same bars",
        [false, true, false] => "closer bars",
        [false, false, _] => "thicker bars",
        _ => panic!("{found:?} {five:?}"),
    }
}

/// "In the schedule these are the x frames, and it is shown that their records read as before; y frames keep 0 and are
/// worked afresh." (02, Six)
#[test]
fn x_records_as_before_and_y_records_afresh() {
    for floors in [listed_floors(), drawn_floors()] {
        let mut sorts = BTreeMap::new();
        for floor in floors {
            let found = each(&floor.bytes()).into_iter();
            let found = found.map(|strip| strip.map(|e| [e.area, e.diameter, e.spacing]));
            for (strip, found) in strips(&floor).into_iter().zip(found) {
                let five = of_five(strip, &floor);
                match strip.layer {
                    Layer::First => assert_eq!(found, five, "{:?} {floor:?}", strip.place),
                    Layer::Second => *sorts.entry(against_five(found, five)).or_insert(0) += 1,
                }
            }
        }
        let names = [
            "closer bars",
            "lacking as before",
            "lacking now",
            "more steel, the same bars",
            "the same",
            "thicker bars",
        ];
        assert!(sorts.keys().eq(&names), "{sorts:?}");
        assert!(sorts.values().all(|&strips| strips >= 30), "{sorts:?}");
    }
}
