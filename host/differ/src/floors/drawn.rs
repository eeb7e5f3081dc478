//! Floors as they are drawn: clear ones wherever there are bays enough.

use cases::draw::Draw;
use cases::floors::drawn::{self, any_sides, Wanted};
use cases::floors::LAYOUTS;
use floor::Floor;
use reference::layout::Layout;

/// Mostly few bays, for what is worked out by the reference grows with their square.
pub fn bays(draw: &mut Draw) -> (usize, usize) {
    let (least, most) = match draw.between(1, 100) {
        1..=6 => return too_few_bays(draw),
        7 => (12, 12),
        8..=12 => (3, 12),
        13..=40 => (3, 6),
        _ => (3, 4),
    };
    let mut bays = || draw.between(least, most);
    (bays(), bays())
}

/// "nx or ny below 3."
fn too_few_bays(draw: &mut Draw) -> (usize, usize) {
    let few = draw.between(1, 2);
    let others = draw.between(1, 12);
    draw.one_of(&[(few, others), (others, few)])
}

pub fn floor(draw: &mut Draw) -> Floor {
    let bays = bays(draw);
    let (layout, _) = draw.one_of(&LAYOUTS);
    of_bays(draw, bays, layout)
}

/// Clear where there are bays enough for that.
pub fn of_bays(draw: &mut Draw, (nx, ny): (usize, usize), layout: Layout) -> Floor {
    let wanted = Wanted {
        nx,
        ny,
        layout,
        sides: any_sides(draw),
    };
    match nx < 3 || ny < 3 {
        true => drawn::floor(draw, wanted),
        false => drawn::clear(draw, wanted),
    }
}
