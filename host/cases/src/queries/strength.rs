//! What a strip of slab bears at most, by trying.

use reference::steel::{minimum_is_met, moment_is_carried, strain_is_kept, Query};

/// The greatest number below `end` that holds, where 0 does, `end` does not, and nothing does above a
/// number that does not.
fn greatest(end: u128, holds: impl Fn(u128) -> bool) -> u128 {
    assert!(holds(0) && !holds(end));
    let (mut holding, mut failing) = (0, end);
    while failing - holding > 1 {
        let middle = (holding + failing) / 2;
        if holds(middle) {
            holding = middle;
        } else {
            failing = middle;
        }
    }
    holding
}

/// The greatest As within the strain limit.
pub fn greatest_area(strip: Query) -> u128 {
    greatest(1 << 20, |area| strain_is_kept(strip, area))
}

/// The least As by the minimum alone.
pub fn least_area(strip: Query) -> u128 {
    let failing = |area| !minimum_is_met(strip, area);
    match failing(0) {
        true => greatest(1 << 20, failing) + 1,
        false => 0,
    }
}

/// The greatest M that an As within the strain limit carries, though it may be out of range.
pub fn greatest_moment(strip: Query, area: u128) -> u128 {
    greatest(1 << 40, |m| moment_is_carried(Query { m, ..strip }, area))
}
