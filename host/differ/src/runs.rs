//! Runs of changes: a floor, its lent table and its governing slice, changed again and again.

mod held;
mod walk;

use crate::case::Case;
use crate::floors::{damaged, floor, lent_numbers, weak};
use crate::same::hex;
use cases::draw::Draw;
use cases::runs::Run;
use floor::Floor;
use held::Held;
use reference::refusals::SUCCESS;
use reference::verdict::{judge, REFUSED};
use walk::Walk;

/// Changes in a case, and how many of them are of a floor that is damaged by then.
pub const CHANGES: u64 = 100;
const AFTER_DAMAGE: u64 = 4;

pub fn case(case: &mut Case) -> Result<(), String> {
    let opens = case.draw.percent(50);
    let drawn = started(&mut case.draw);
    let floor = thick_enough(&mut case.draw, drawn);
    let mut held = on_any_numbers(case, floor);
    if opens {
        held.open(case)?;
    }
    let mut walk = Walk::default();
    for _ in 0..CHANGES - AFTER_DAMAGE {
        if !opens && case.draw.percent(35) {
            held.spoil(case);
        }
        next_change(case, &mut held, &mut walk, !opens)?;
    }
    held.panels_and_schedule(case)?;
    changes_after_damage(case, &held.floor)
}

/// "A change tries 1 to 7 on the held floor": mostly it is refused.
fn changes_after_damage(case: &mut Case, floor: &[u8]) -> Result<(), String> {
    let (_, bytes) = damaged(&mut case.draw, floor);
    let mut held = on_any_numbers(case, bytes);
    let mut walk = Walk::default();
    for _ in 0..AFTER_DAMAGE {
        next_change(case, &mut held, &mut walk, true)?;
    }
    Ok(())
}

/// A run that is described, with the table and the slice that it has.
pub fn replay(case: &mut Case, run: &Run) -> Result<(), String> {
    let (table, governing) = (run.table.clone(), run.governing.clone());
    let mut held = Held::new(case, run.floor.clone(), table, governing);
    if run.opens {
        held.open(case)?;
    }
    for change in &run.changes {
        compare(case, &mut held, change)?;
    }
    held.panels_and_schedule(case)
}

/// Now and then with an edge so near to 8000 that changes of its beam, or of the span beside it, make it weak and
/// strong again.
fn started(draw: &mut Draw) -> Floor {
    let edged = draw.percent(15).then(|| weak::edge(draw).0);
    let clear = edged.filter(|floor| judge(&floor.bytes()) == (SUCCESS, 0));
    clear.unwrap_or_else(|| floor(draw))
}

fn on_any_numbers(case: &mut Case, floor: Vec<u8>) -> Held {
    let (table, governing) = lent_numbers(&mut case.draw, &floor);
    Held::new(case, floor, table, governing)
}

/// Now and then with a thicker slab, so that there is room for longer spans.
fn thick_enough(draw: &mut Draw, floor: Floor) -> Vec<u8> {
    let t = floor.t * draw.one_of(&[100, 100, 110, 125]) / 100;
    let thicker = Floor { t, ..floor.clone() }.bytes();
    match judge(&thicker) {
        (SUCCESS, 0) => thicker,
        _ => floor.bytes(),
    }
}

/// The floor itself, but a good one where it is refused: no change of that is taken.
fn floor_to_draw_for(held: &Held) -> Vec<u8> {
    match held.verdict {
        REFUSED => Floor::clear(3, 3).bytes(),
        _ => held.floor.clone(),
    }
}

/// Where the table may be spoilt, the change now and then makes ties.
fn next_change(
    case: &mut Case,
    held: &mut Held,
    walk: &mut Walk,
    spoils: bool,
) -> Result<(), String> {
    let change = walk.next(&mut case.draw, &floor_to_draw_for(held), held.verdict);
    if spoils && case.draw.percent(10) {
        held.plant_ties(case, &change);
    }
    let (floor, before) = (held.floor.clone(), held.verdict);
    if compare(case, held, &change)? {
        walk.taken(&floor, &change, (before, held.verdict));
    }
    Ok(())
}

fn compare(case: &mut Case, held: &mut Held, change: &[u8]) -> Result<bool, String> {
    let floor = held.floor.clone();
    held.change(case, change).map_err(|words| {
        let (floor, change) = (hex(&floor), hex(change));
        format!("change {change}: {words}; the floor before:\n{floor}")
    })
}
