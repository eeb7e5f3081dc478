//! The floors that the printing program is held against.

use crate::runs::ties;
use cases::draw::Draw;
use cases::floors::{self, tied, Described};
use floor::Floor;
use reference::floor_file::{records_of_kind, sides, sizes};
use reference::frame::{x_frames, y_frames, Frame, OuterEnd};
use reference::layout::{layout, Layout};
use reference::moments::clear_length;
use reference::panel::{panel, panel_numbers, panels};
use reference::stiffness::torsion;
use reference::strips::{beam_ratio, l2, span_ratio, torsion_ratio};
use reference::table::numbers;
use reference::verdict::judge;
use std::collections::BTreeSet;
use std::sync::OnceLock;

/// Drawn once for all tests.
pub fn all_floors() -> &'static [Described] {
    static FLOORS: OnceLock<Vec<Described>> = OnceLock::new();
    FLOORS.get_or_init(floors::all)
}

pub fn clear_floors() -> Vec<&'static Described> {
    let clear = |floor: &&Described| judge(&floor.bytes) == (0, 0);
    all_floors().iter().filter(clear).collect()
}

#[test]
fn no_two_floors_share_a_description() {
    let floors = all_floors();
    let long = floors::long::inputs();
    let all: BTreeSet<&str> = floors
        .iter()
        .chain(&long)
        .map(|floor| &floor.description[..])
        .collect();
    assert_eq!(all.len(), floors.len() + long.len());
}

#[test]
fn floors_are_the_same_each_time() {
    let again = floors::all();
    assert_eq!(again.len(), all_floors().len());
    for (one, other) in again.iter().zip(all_floors()) {
        assert_eq!(one.description, other.description);
        assert_eq!(one.bytes, other.bytes, "{}", one.description);
    }
}

#[test]
fn floors_drawn_as_clear_are() {
    for floor in all_floors() {
        if floor.description.starts_with("clear") {
            assert_eq!(judge(&floor.bytes), (0, 0), "{}", floor.description);
        }
    }
}

#[test]
fn floors_made_to_have_a_tie_do() {
    let mut draw = Draw::starting_at(41);
    let mut floors: Vec<Vec<u8>> = (0..100).map(|_| tied::floor(&mut draw).bytes()).collect();
    floors.extend(tied::floors().into_iter().map(|floor| floor.bytes));
    for floor in floors {
        assert_eq!(judge(&floor), (0, 0));
        assert!(!ties(&floor, &numbers(&floor)).is_empty(), "{floor:?}");
    }
}

#[test]
fn floors_made_to_be_refused_are() {
    for floor in floors::refused::floors() {
        let (refused, verdict) = judge(&floor.bytes);
        assert_ne!(refused, 0, "{}", floor.description);
        assert_eq!(verdict, 255, "{}", floor.description);
    }
}

/// Every one of the seven is broken alone by some floor, and all together by one.
#[test]
fn limits_broken_alone_and_together() {
    let verdicts: BTreeSet<(u128, u128)> = all_floors()
        .iter()
        .map(|floor| judge(&floor.bytes))
        .collect();
    for verdict in [0, 1, 2, 4, 8, 16, 32, 64, 127] {
        assert!(verdicts.contains(&(0, verdict)), "{verdict}");
    }
}

#[test]
fn clear_floors_have_every_layout_and_side() {
    let mut seen = BTreeSet::new();
    for floor in clear_floors() {
        let layout = format!("{:?}", layout(&floor.bytes));
        let sides = sides(records_of_kind(&floor.bytes, 4)[0].c);
        for (side, code) in [
            ("west", sides.west),
            ("east", sides.east),
            ("south", sides.south),
            ("north", sides.north),
        ] {
            seen.insert((layout.clone(), side, code));
        }
    }
    assert_eq!(seen.len(), 3 * 4 * 3);
}

#[test]
fn clear_floors_reach_the_largest_size_in_every_layout() {
    for wanted in [Layout::Everywhere, Layout::OuterLinesOnly, Layout::NoBeams] {
        let largest = |floor: &&&Described| {
            let sizes = sizes(&floor.bytes);
            (sizes.nx, sizes.ny) == (12, 12) && layout(&floor.bytes) == Some(wanted)
        };
        assert!(clear_floors().iter().filter(largest).count() >= 2);
    }
}

fn note_end(seen: &mut BTreeSet<&str>, frame: &Frame, end: OuterEnd) {
    if !end.line_across.has_beam() {
        seen.insert("B without a beam");
        return;
    }
    let t = frame.slab.t;
    let torsion = torsion(end.line_across, t);
    seen.insert(match torsion_ratio(Some(torsion), l2(frame.adjoining), t) {
        25_000 => "B at its most",
        _ => "B below its most",
    });
}

fn note(seen: &mut BTreeSet<&str>, frame: &Frame) {
    note_end(seen, frame, frame.low_end);
    note_end(seen, frame, frame.high_end);
    for &l1 in &frame.spans {
        let l2 = l2(frame.adjoining);
        seen.insert(match beam_ratio(frame.alpha, l2, l1) {
            0 => "A 0",
            10_000 => "A at its most",
            _ => "A below its most",
        });
        seen.insert(match span_ratio(l2, l1) {
            0..10_000 => "R below 1",
            10_000 => "R 1",
            10_001..=15_000 => "R to 1.5",
            _ => "R past 1.5",
        });
        seen.insert(match clear_length(l1, frame.column) == l1 - frame.column {
            true => "l1 less the column",
            false => "0.65 of l1",
        });
    }
}

/// The clear floors come by every way that the rules of the moments take.
#[test]
fn every_way_through_the_moments() {
    let mut seen = BTreeSet::new();
    for floor in clear_floors() {
        for frame in x_frames(&floor.bytes).iter().chain(&y_frames(&floor.bytes)) {
            note(&mut seen, frame);
        }
    }
    assert_eq!(seen.len(), 3 + 3 + 4 + 2, "{seen:?}");
}

/// "S > 80000", "8000 < S ≤ 80000", "otherwise": each decides in panels of clear floors with beams, at a weak edge,
/// at a strong one and inside. Where S is not above 8000 with beams everywhere no edge is strong.
#[test]
fn every_way_through_the_thickness() {
    let mut seen = BTreeSet::new();
    for floor in clear_floors() {
        for (i, j) in panels(&floor.bytes) {
            let panel = panel_numbers(&floor.bytes, i, j);
            let range = match (panel.layout, panel.alpha_sum) {
                (Layout::Everywhere, 80_001..) => "S > 80000",
                (Layout::Everywhere, 8_001..) => "8000 < S",
                (Layout::Everywhere, _) => "otherwise",
                (Layout::OuterLinesOnly, _) => "edge beams only",
                (Layout::NoBeams, _) => continue,
            };
            let edge = panel.least_outer_alpha.map(|alpha| alpha < 8_000);
            seen.insert((range, edge));
        }
    }
    assert_eq!(seen.len(), 4 * 3 - 1, "{seen:?}");
}

/// No rule tells x from y, so a floor with both changed round has the same verdict, and its panels the
/// same thicknesses.
#[test]
fn floors_transposed() {
    let mut seen = BTreeSet::new();
    for Described { description, bytes } in all_floors() {
        let (0, verdict) = judge(bytes) else { continue };
        let floor = Floor::of(bytes).expect("a floor that is taken");
        let across = floor.transposed().bytes();
        assert_eq!(judge(&across), (0, verdict), "{description}");
        for x in 0..=floor.x_spans.len() as u128 {
            for y in 0..=floor.y_spans.len() as u128 {
                let (along, across) = (panel(bytes, x, y), panel(&across, y, x));
                assert_eq!(along, across, "{description}, {x} {y}");
            }
        }
        seen.extend([1, 2, 4, 8, 16, 32, 64].map(|limit| (limit, verdict & limit != 0)));
    }
    // Each of the seven, broken and not.
    assert_eq!(seen.len(), 14);
}
