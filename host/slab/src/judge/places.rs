//! Where a floor breaks the limits of the method, as the library lists it.

use crate::way::Way;

/// "Four numbers for each place": limit, direction, i, j.
const WIDTH: usize = 4;

#[derive(Clone, Copy, Debug, PartialEq, Eq)]
pub struct Place {
    pub limit: u32,
    /// x where the limit has no direction.
    pub way: Way,
    pub i: usize,
    pub j: usize,
}

impl Place {
    fn read(numbers: &[u32]) -> Place {
        Place {
            limit: numbers[0],
            way: [Way::X, Way::Y][numbers[1] as usize],
            i: numbers[2] as usize,
            j: numbers[3] as usize,
        }
    }
}

/// In the library's order. There is room for those of any floor, so that refusal 25 never arises.
pub fn places(file: &[u8]) -> Vec<Place> {
    let mut lent = [0; gandhrumil::PLACES_LEN];
    let count = gandhrumil::places(file, &mut lent).value as usize;
    let written = lent[..WIDTH * count].chunks_exact(WIDTH);
    written.map(Place::read).collect()
}
