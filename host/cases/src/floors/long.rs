//! Bytes longer than any floor: 12 by 12 bays make 3,568.

use super::drawn::{self, Wanted};
use super::Described;
use crate::draw::Draw;
use reference::layout::Layout;

const LENGTHS: [usize; 7] = [3_569, 3_583, 3_584, 3_600, 1_000_000, 1_000_001, 1_000_016];

pub fn garbage(draw: &mut Draw, length: usize) -> Vec<u8> {
    (0..length).map(|_| draw.bits() as u8).collect()
}

pub fn inputs() -> Vec<Described> {
    let mut draw = Draw::starting_at(7);
    let wanted = Wanted {
        nx: 12,
        ny: 12,
        layout: Layout::Everywhere,
        sides: 70,
    };
    let floor = drawn::clear(&mut draw, wanted).bytes();
    let mut inputs = Vec::new();
    for length in LENGTHS {
        let tail = length - floor.len();
        for (words, bytes) in [
            ("12x12, then zeros", [&floor[..], &vec![0; tail]].concat()),
            (
                "12x12, then garbage",
                [&floor[..], &garbage(&mut draw, tail)].concat(),
            ),
            ("garbage", garbage(&mut draw, length)),
        ] {
            inputs.push(Described::bytes(format!("{length} bytes: {words}"), bytes));
        }
    }
    inputs
}
