//! Every byte of a good floor flipped, one at a time.

use super::drawn::of_bays;
use super::spoilt;
use crate::case::Case;
use cases::floors::LAYOUTS;

/// The lowest bit, the highest, all of them, and at last any.
const WAYS: [Option<u8>; 4] = [Some(0x01), Some(0x80), Some(0xff), None];

/// Bays from one dozen of cases to the next.
const BAYS: [(usize, usize); 4] = [(3, 3), (1, 1), (4, 3), (12, 12)];

/// One floor with one way: each way and each layout in a dozen of cases.
pub fn case(case: &mut Case, number: u64) -> Result<(), String> {
    let number = number as usize;
    let way = WAYS[number % 4];
    let (layout, _) = LAYOUTS[number / 4 % 3];
    let floor = of_bays(&mut case.draw, BAYS[number / 12 % 4], layout).bytes();
    for place in 0..floor.len() {
        let bits = way.unwrap_or(case.draw.between(1, 255));
        let mut bytes = floor.clone();
        bytes[place] ^= bits;
        spoilt(case, &format!("byte {place} flipped by {bits:#x}"), &bytes)?;
    }
    Ok(())
}
