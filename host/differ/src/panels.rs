//! The panel queries of one floor.

use crate::case::Case;
use crate::lent::Lent;
use crate::same::same_answer;
use cases::draw::Draw;
use reference::floor_file::{sizes, Sizes};
use reference::panel::{panel, panels};
use reference::refusals::{refusal, SUCCESS};

/// Every panel of the floor, and bays that it lacks: the next one, ones that a reader of too few bits would
/// take for the first, the last number.
fn asked(draw: &mut Draw, floor: &[u8]) -> Vec<(u64, u64)> {
    let mut asked = vec![(0, 0), (draw.bits(), 0), (0, draw.bits())];
    if refusal(floor) == SUCCESS {
        let Sizes { nx, ny, .. } = sizes(floor);
        let (nx, ny) = (nx as u64, ny as u64);
        let wide = 1 << draw.one_of(&[8, 16, 32, 63]);
        let found = panels(floor).into_iter();
        asked.extend(found.map(|(x, y)| (x as u64, y as u64)));
        asked.extend([(nx, 0), (0, ny), (nx, ny), (wide, 0), (0, wide)]);
        asked.extend([(u64::MAX, ny - 1), (nx - 1, u64::MAX)]);
        asked.push((u64::MAX, u64::MAX));
    }
    asked
}

pub fn compare(case: &mut Case, floor: &[u8], lent: &Lent<u8>) -> Result<(), String> {
    for (x, y) in asked(&mut case.draw, floor) {
        let answer = (case.job.calls.panel)(lent.numbers(), x, y);
        let right = panel(floor, x.into(), y.into());
        same_answer(answer, right)
            .and_then(|()| lent.holds("floor", floor))
            .map_err(|words| format!("panel {x}, {y}: {words}"))?;
        case.tally.panels.add(right.0);
    }
    Ok(())
}
