//! "nx or ny below 3."

use super::drawn::{self, Wanted};
use super::{Described, LAYOUTS};
use crate::draw::Draw;
use floor::Floor;

const SIZES: [(usize, usize); 10] = [
    (1, 1),
    (1, 2),
    (2, 1),
    (2, 2),
    (2, 3),
    (3, 2),
    (1, 12),
    (12, 1),
    (2, 12),
    (12, 2),
];

/// "One bay each way, spans 4,000, t 200, fc 30, fy 420, D 5,000, L 2,000, columns 400, sides 0, no
/// beams, no offsets (14 records) prints only `0 1`."
pub fn one_bay() -> Floor {
    Floor {
        x_spans: vec![4_000],
        y_spans: vec![4_000],
        ..Floor::clear(1, 1)
    }
}

pub fn floors() -> Vec<Described> {
    let mut draw = Draw::starting_at(5);
    let mut floors = vec![Described::floor("the floor of 01", &one_bay())];
    for (nx, ny) in SIZES {
        for (layout, words) in LAYOUTS {
            let wanted = Wanted {
                nx,
                ny,
                layout,
                sides: draw.one_of(&[0, 1, 32, 70, 170]),
            };
            let floor = drawn::floor(&mut draw, wanted);
            floors.push(Described::floor(format!("{nx}x{ny}, {words}"), &floor));
        }
    }
    floors
}
