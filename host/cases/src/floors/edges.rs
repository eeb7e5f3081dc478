//! Floors at the edge of a limit and just past it: "equality always passes".

use super::beams::{self, Edge};
use super::drawn::{self, Wanted};
use super::{weak, Described, LAYOUTS};
use crate::draw::Draw;
use floor::Floor;
use reference::layout::Layout;
use reference::verdict::{judge, unbalanced_panels};

pub fn floors() -> Vec<Described> {
    let edges = [
        panel_lengths(),
        neighbours(),
        offsets(),
        loads(),
        beams::edges(),
        drawn_stiffnesses(),
        thicknesses(),
        weak::edges(),
    ];
    let mut floors = Vec::new();
    for (words, floor) in edges.concat() {
        floors.push(Described::floor(&words, &floor));
        let across = floor.transposed();
        floors.push(Described::floor(format!("{words}, across"), &across));
    }
    floors
}

/// "in a panel, longer span > 2·shorter"
fn panel_lengths() -> Vec<Edge> {
    let mut edges = Vec::new();
    for longer in [6_000, 6_020] {
        let mut floor = Floor::clear(4, 3);
        floor.x_spans[2] = longer;
        floor.y_spans = vec![3_020, 3_000, 3_020];
        edges.push((format!("panel {longer} by 3000"), floor));
    }
    edges
}

/// "Neighbours 6,000 and 4,000 pass, 3,980 breaks."
fn neighbours() -> Vec<Edge> {
    let mut edges = Vec::new();
    for shorter in [4_000, 3_980] {
        for spans in [[5_000, 6_000, shorter], [shorter, 6_000, 5_000]] {
            let mut floor = Floor::clear(3, 4);
            floor.x_spans = spans.to_vec();
            edges.push((format!("neighbours {spans:?}"), floor));
        }
    }
    edges
}

/// "Offset 600 on 6,000 passes, 601 breaks": at a corner, inside, at the end; then where the shorter
/// span is the lower or the higher one.
fn offsets() -> Vec<Edge> {
    let mut edges = Vec::new();
    for offset in [600, 601] {
        for column in [0, 5, 19] {
            let mut floor = Floor::clear(3, 4);
            floor.offsets[column].0 = offset;
            edges.push((format!("offset {offset} of column {column}"), floor));
        }
    }
    for offset in [500, 501] {
        for column in [5, 6] {
            let mut floor = Floor::clear(3, 4);
            floor.x_spans[1] = 5_000;
            floor.offsets[column].0 = offset;
            edges.push((format!("offset {offset} of column {column}"), floor));
        }
    }
    edges
}

/// "L = 2D passes."
fn loads() -> Vec<Edge> {
    [
        (5_000, 10_000),
        (5_000, 10_001),
        (25_000, 50_000),
        (24_999, 50_000),
    ]
    .into_iter()
    .map(|(dead, live)| {
        let floor = Floor::clear(3, 4);
        let words = format!("dead {dead}, live {live}");
        (
            words,
            Floor {
                dead,
                live,
                ..floor
            },
        )
    })
    .collect()
}

/// The deepest beam on an x line that breaks nothing, then with it the widest, and one more.
fn drawn_stiffnesses() -> Vec<Edge> {
    let mut draw = Draw::starting_at(3);
    let mut edges = Vec::new();
    while edges.len() < 6 {
        let wanted = Wanted {
            nx: 3,
            ny: 4,
            layout: Layout::Everywhere,
            sides: draw.one_of(&[0, 38, 145]),
        };
        let mut floor = drawn::clear(&mut draw, wanted);
        let line = draw.between(0, 4);
        let unlike = |floor: &Floor| !unbalanced_panels(&floor.bytes()).is_empty();
        while !unlike(&floor) && floor.x_lines[line].1 < 1_500 {
            floor.x_lines[line].1 += 1;
        }
        floor.x_lines[line].1 -= 1;
        while !unlike(&floor) && floor.x_lines[line].0 < 1_000 {
            floor.x_lines[line].0 += 1;
        }
        if unlike(&floor) {
            let (width, depth) = floor.x_lines[line];
            let mut passes = floor.clone();
            passes.x_lines[line].0 -= 1;
            let words = format!("x line {line} of depth {depth}");
            edges.push((format!("{words}, {} wide", width - 1), passes));
            edges.push((format!("{words}, {width} wide"), floor));
        }
    }
    edges
}

/// "t below some panel's least thickness": the thinnest slab that breaks nothing, and one thinner.
fn thicknesses() -> Vec<Edge> {
    let mut draw = Draw::starting_at(4);
    let mut edges = Vec::new();
    for (layout, words) in LAYOUTS {
        for fy in [280, 420, 520] {
            let floor = thinnest(&mut draw, layout, fy);
            let t = floor.t;
            let thinner = Floor {
                t: t - 1,
                ..floor.clone()
            };
            edges.push((format!("fy {fy}, {words}, slab of {t}"), floor));
            edges.push((format!("fy {fy}, {words}, slab of {t} less 1"), thinner));
        }
    }
    edges
}

fn thinnest(draw: &mut Draw, layout: Layout, fy: u32) -> Floor {
    let clear = |floor: &Floor| judge(&floor.bytes()) == (0, 0);
    loop {
        let wanted = Wanted {
            nx: draw.between(3, 5),
            ny: draw.between(3, 5),
            layout,
            sides: 0,
        };
        let mut floor = drawn::clear(draw, wanted);
        floor.fy = fy;
        while clear(&floor) {
            floor.t -= 1;
        }
        floor.t += 1;
        // Not the least of all: a panel asks for it by its spans.
        if floor.t > 125 && clear(&floor) {
            return floor;
        }
    }
}
