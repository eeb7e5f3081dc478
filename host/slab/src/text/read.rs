//! A text into the floor that it says.

use super::faults::Fault;
use super::forms::{Form, FORMS};
use super::line::{said, Said};
use super::lines::Lines;
use super::places::{self, Pair};
use floor::{Floor, MOST_COLUMNS};

/// What the lines of a text say, put together.
#[derive(Default)]
struct Draft {
    /// How many lines have been read.
    lines: usize,
    /// Of each form the line that has it and its numbers, if they could be read.
    once: [Option<(usize, Option<Vec<u32>>)>; FORMS.len()],
    beams: Vec<Pair<Lines>>,
    offsets: Vec<Pair<[usize; 2]>>,
    faults: Vec<Fault>,
}

/// The floor, or every fault by rising line.
pub fn floor(text: &[u8]) -> Result<Floor, Vec<Fault>> {
    let text = text.strip_prefix(b"\xef\xbb\xbf").unwrap_or(text);
    let text = text.strip_suffix(b"\n").unwrap_or(text);
    let mut draft = Draft::default();
    for line in text.split(|&byte| byte == b'\n') {
        draft.lines += 1;
        draft.take(line);
    }
    draft.name_missing();
    let floor = draft.floor();
    draft.faults.sort_by_key(|fault| fault.line);
    match floor {
        Some(floor) if draft.faults.is_empty() => Ok(floor),
        _ => Err(draft.faults),
    }
}

impl Draft {
    fn fault(&mut self, line: usize, words: String) {
        self.faults.push(Fault { line, words });
    }

    fn take(&mut self, line: &[u8]) {
        let number = self.lines;
        match said(line) {
            Ok(Said::Nothing) => (),
            Ok(Said::Once(form, numbers)) => self.take_once(form, numbers),
            Ok(Said::Beam(place, pair)) => self.beams.push(Pair {
                line: number,
                place,
                pair,
            }),
            Ok(Said::Offset(place, pair)) => self.offsets.push(Pair {
                line: number,
                place,
                pair,
            }),
            Err(words) => self.fault(number, words),
        }
    }

    fn take_once(&mut self, form: usize, numbers: Result<Vec<u32>, String>) {
        if let Some((first, _)) = self.once[form] {
            let key = FORMS[form].key;
            let words = format!("expected `{key}` once, and line {first} has it already");
            return self.fault(self.lines, words);
        }
        let numbers = numbers.map_err(|words| self.fault(self.lines, words));
        self.once[form] = Some((self.lines, numbers.ok()));
    }

    fn name_missing(&mut self) {
        let missing = FORMS
            .iter()
            .zip(&self.once)
            .filter(|(_, found)| found.is_none());
        let faults = missing.map(|(Form { key, example, .. }, _)| Fault {
            line: self.lines,
            words: format!("expected `{key}` before the text ends; for example `{example}`"),
        });
        self.faults.extend(faults);
    }

    /// None where there are no spans to place things by, or something else is missing; a fault has said so.
    fn floor(&mut self) -> Option<Floor> {
        let once = self.once.clone().map(|found| found?.1);
        let [slab, concrete, steel, dead, live, columns, sides, x_spans, y_spans] = once;
        let (x_spans, y_spans) = (x_spans?, y_spans?);
        let (nx, ny) = (x_spans.len(), y_spans.len());
        if (nx + 1) * (ny + 1) > MOST_COLUMNS {
            self.name_crowd(nx, ny);
            return None;
        }
        let (x_lines, y_lines) = places::beams(&self.beams, nx, ny, &mut self.faults);
        let offsets = places::offsets(&self.offsets, nx, ny, &mut self.faults);
        Some(Floor {
            t: slab?[0],
            fc: concrete?[0],
            fy: steel?[0],
            dead: dead?[0],
            live: live?[0],
            cx: columns.as_ref()?[0],
            cy: columns?[1],
            sides: sides?[0],
            x_spans,
            y_spans,
            x_lines,
            y_lines,
            offsets,
        })
    }

    fn name_crowd(&mut self, nx: usize, ny: usize) {
        let words = format!(
            "expected at most {MOST_COLUMNS} columns, which a floor file has room for, \
             found {nx} x spans and {ny} y spans"
        );
        let spans = FORMS.len() - if nx > ny { 2 } else { 1 };
        let line = self.once[spans]
            .as_ref()
            .map_or(self.lines, |found| found.0);
        self.fault(line, words);
    }
}
