//! The note of the two layers of bars: it stands wherever bars do, and has the depths that their areas are worked out for.

use floor::Floor;
use reference::schedule::{entries, least_area};
use reference::steel::Query;

/// Of the garage, whose slab has 200 mm: 26 and 38 less.
pub const NOTE: &str =
    "At top and bottom, bars along x lie next to the face of the slab, at an effective depth of 174 mm, and bars along y inside them, at 162 mm.";

/// Those of the note, along x and along y.
pub fn depths(words: &str) -> Option<[u32; 2]> {
    let (_, words) = words
        .split_once(" At top and bottom, bars along x lie next to the face of the slab, at an effective depth of ")?;
    let (x, words) = words.split_once(" mm, and bars along y inside them, at ")?;
    let (y, _) = words.split_once(" mm.")?;
    Some([x, y].map(|depth| depth.parse().unwrap()))
}

/// Of a floor with bars: each area is the least at the depth of its direction.
pub fn expect_areas(description: &str, file: &[u8], depths: [u32; 2]) {
    let floor = Floor::of(file).unwrap();
    let of_x_frames = floor.x_spans.len() * floor.x_lines.len();
    let [t, fc, fy] = [floor.t, floor.fc, floor.fy].map(u128::from);
    for entry in entries(file).unwrap() {
        let along_y = entry.record >= of_x_frames as u128;
        let area = least_area(Query {
            m: entry.moment,
            b: entry.width,
            t,
            d: depths[usize::from(along_y)].into(),
            fc,
            fy,
        });
        assert_eq!(area, Some(entry.area), "{description}: {entry:?}");
    }
}
