//! Whether a floor is clear, asked of the floor alone.

use crate::case::Case;
use crate::lent::Lent;
use crate::same::same_answer;
use crate::tally::Said;
use cases::places::broken;
use reference::clear::{clear, YES};
use reference::refusals::SUCCESS;

fn said(floor: &[u8], right: (u128, u128)) -> Said {
    match right {
        (SUCCESS, YES) => Said::Yes,
        (SUCCESS, _) => match broken(floor)[..] {
            [one] => Said::NoByOnePlace(one.limit),
            _ => Said::No,
        },
        (refused, _) => Said::Refused(refused),
    }
}

pub fn compare(case: &mut Case, floor: &[u8], lent: &Lent<u8>) -> Result<(), String> {
    let answer = (case.job.calls.clear)(lent.numbers());
    let right = clear(floor);
    same_answer(answer, right)
        .and_then(|()| lent.holds("floor", floor))
        .map_err(|words| format!("clear: {words}"))?;
    case.tally.clear.add(said(floor, right));
    Ok(())
}
