//! A floor into its text, in one fixed form.

use super::forms::{Numbers, FORMS};
use super::sides;
use floor::Floor;

const HEADER: &str = "\
# A floor, as `slab make` reads it. Lengths in mm, loads in N/m2, strengths in MPa.
# x spans go from west to east, y spans from south to north. x lines run along x, x line 0 is south;
# y lines run along y, y line 0 is west. Sides are columns, unrestrained or restrained.
";

pub fn text(floor: &Floor) -> String {
    [
        HEADER.to_string(),
        once(floor),
        beams("x", &floor.x_lines),
        beams("y", &floor.y_lines),
        offsets(floor),
    ]
    .into_iter()
    .filter(|block| !block.is_empty())
    .collect::<Vec<String>>()
    .join("\n")
}

/// The note stands beside what is short enough.
fn with_note(line: &str, note: &str) -> String {
    if note.is_empty() {
        return format!("{line}\n");
    }
    format!("{line:<27} # {note}\n")
}

fn once(floor: &Floor) -> String {
    let one = |number: u32| vec![number];
    let numbers = [
        one(floor.t),
        one(floor.fc),
        one(floor.fy),
        one(floor.dead),
        one(floor.live),
        vec![floor.cx, floor.cy],
        one(floor.sides),
        floor.x_spans.clone(),
        floor.y_spans.clone(),
    ];
    let lines = FORMS.iter().zip(numbers).map(|(form, numbers)| {
        let words = match form.numbers {
            Numbers::Sides => vec![sides::written(numbers[0])],
            _ => numbers.iter().map(u32::to_string).collect(),
        };
        let line = [&[form.key.to_string()], &words[..]].concat().join(" ");
        with_note(&line, form.note)
    });
    lines.collect()
}

/// What is not all zeros; the first of them with the note.
fn noted(lines: impl Iterator<Item = (String, (u32, u32))>, note: &str) -> String {
    let given = lines.filter(|(_, pair)| *pair != (0, 0));
    let written = given.enumerate().map(|(number, (key, (a, b)))| {
        let note = if number == 0 { note } else { "" };
        with_note(&format!("{key} {a} {b}"), note)
    });
    written.collect()
}

fn beams(way: &str, lines: &[(u32, u32)]) -> String {
    let keys = lines.iter().enumerate();
    let lines = keys.map(|(number, &beam)| (format!("{way} line {number} beam"), beam));
    noted(lines, "width, depth")
}

fn offsets(floor: &Floor) -> String {
    let across = floor.x_spans.len() + 1;
    let keys = floor.offsets.iter().enumerate();
    let columns = keys.map(|(number, &offset)| {
        let (i, j) = (number % across, number / across);
        (format!("column {i} {j} offset"), offset)
    });
    noted(columns, "column on y line, x line; off along x, along y")
}
