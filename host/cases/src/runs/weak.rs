//! Runs that make an outer line weak and strong again (02, Three): by its beam, and by the span beside it, which
//! its W is half of.

use super::tables::{governing, table, HELD};
use super::Run;
use crate::draw::Draw;
use crate::floors::weak;
use floor::{record, Floor};

fn beam_of_x_line_0(floor: &Floor) -> Vec<u8> {
    let (width, depth) = floor.x_lines[0];
    record(7, 0, [width, depth, 0])
}

fn y_span_0(floor: &Floor, longer: u32) -> Vec<u8> {
    record(6, 0, [floor.y_spans[0] + longer, 0, 0])
}

/// From the floor with α 8,000 on: weak by the beam and strong again, weak by a span that is 20 longer and strong
/// again, and once more while its loads change.
fn changes(strong: &Floor, weak: &Floor) -> Vec<Vec<u8>> {
    vec![
        beam_of_x_line_0(weak),
        record(3, 0, [6_000, 1_000, 0]),
        beam_of_x_line_0(strong),
        y_span_0(strong, 20),
        y_span_0(strong, 0),
        beam_of_x_line_0(weak),
        y_span_0(strong, 20),
        beam_of_x_line_0(strong),
        y_span_0(strong, 0),
    ]
}

/// "5 x span" and "6 y span", "7 beam on x line" and "8 beam on y line" for each other.
fn transposed(mut changes: Vec<Vec<u8>>) -> Vec<Vec<u8>> {
    for change in &mut changes {
        change[0] = match change[0] {
            5 => 6,
            6 => 5,
            7 => 8,
            8 => 7,
            kind => kind,
        };
    }
    changes
}

/// Of each triple the floor with α 8,000, where the weak edge breaks 64, along x and across; then the one that is
/// thick enough for it.
fn started() -> Vec<(String, Floor, Vec<Vec<u8>>)> {
    let mut started = Vec::new();
    for (words, [enough, thin, strong]) in weak::triples() {
        let changes = changes(&strong, &thin);
        let across = (strong.transposed(), transposed(changes.clone()));
        let there_and_back = [&strong, &enough].map(beam_of_x_line_0).to_vec();
        started.push((format!("{words}, along"), strong, changes));
        started.push((format!("{words}, across"), across.0, across.1));
        started.push((format!("{words}, thick enough"), enough, there_and_back));
    }
    started
}

pub fn runs() -> Vec<Run> {
    let mut draw = Draw::starting_at(51);
    let mut runs = Vec::new();
    for (number, (words, floor, changes)) in started().into_iter().enumerate() {
        let floor = floor.bytes();
        let table = table(&mut draw, &floor, HELD[number % 4], 3);
        runs.push(Run {
            description: format!("weak edges, {words}"),
            opens: number % 2 == 0,
            governing: governing(&mut draw, &floor, &table, HELD[number / 3 % 4], 3),
            table,
            changes,
            floor,
        });
    }
    runs
}
