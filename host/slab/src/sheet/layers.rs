//! The two layers of bars, at the top of the slab and at the bottom alike: "The y bars lie on the x bars" (02, Six).

use crate::way::Way;

/// How deep the bars along a direction lie, in mm.
fn depth(way: Way, t: u32) -> u32 {
    match way {
        Way::X => t - 26,
        Way::Y => t - 38,
    }
}

/// The d of a steel query for them: "Callers that meant the first layer pass t − 26 themselves. In the schedule these are the x frames .. y
/// frames keep 0".
pub fn asked_depth(way: Way, t: u32) -> u32 {
    match way {
        Way::X => depth(way, t),
        Way::Y => 0,
    }
}

/// For the fixer, wherever there are bars: their areas hold for this order alone.
pub fn note(t: u32) -> String {
    let [x, y] = [Way::X, Way::Y].map(|way| depth(way, t));
    format!("At top and bottom, bars along x lie next to the face of the slab, at an effective depth of {x} mm, and bars along y inside them, at {y} mm.")
}
