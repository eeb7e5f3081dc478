//! The floors with a weak outer line: that each is where its words say, by figures worked out apart.

use crate::floors::all_floors;
use floor::Floor;
use reference::panel::{panel, x_line_alphas, y_line_alphas};
use reference::verdict::judge;
use std::collections::BTreeSet;

/// α of x line 0 and S of the panel in the middle of the south row.
type Alphas = (u128, u128);

/// Of that panel, of the corner beside it and of the inner panel.
type Least = [u128; 3];

const EVERYWHERE: [(&str, Alphas, Least, u128); 23] = [
    (
        "S above 80000, edge 7999",
        (7_999, 103_213),
        [200, 200, 181],
        0,
    ),
    (
        "S above 80000, edge 7999 and too thin",
        (7_999, 103_103),
        [201, 201, 182],
        64,
    ),
    (
        "S above 80000, edge 8000",
        (8_000, 103_104),
        [182, 182, 182],
        0,
    ),
    (
        "S above 8000, edge 7999",
        (7_999, 17_206),
        [200, 193, 185],
        0,
    ),
    (
        "S above 8000, edge 7999 and too thin",
        (7_999, 17_188),
        [201, 193, 185],
        64,
    ),
    (
        "S above 8000, edge 8000",
        (8_000, 17_189),
        [182, 175, 185],
        0,
    ),
    (
        "90 by its minimum, edge 7999",
        (7_999, 114_061),
        [99, 99, 90],
        0,
    ),
    (
        "90 by its minimum, edge 7999 and too thin",
        (7_999, 117_457),
        [99, 99, 90],
        64,
    ),
    (
        "90 by its minimum, edge 8000",
        (8_000, 117_458),
        [90, 90, 90],
        0,
    ),
    (
        "125 by its minimum, edge 7999",
        (7_999, 18_889),
        [138, 138, 125],
        0,
    ),
    (
        "125 by its minimum, edge 7999 and too thin",
        (7_999, 19_144),
        [138, 138, 125],
        64,
    ),
    (
        "125 by its minimum, edge 8000",
        (8_000, 19_145),
        [125, 125, 125],
        0,
    ),
    ("edge 7999, S 80000", (7_999, 80_000), [138, 99, 90], 64),
    ("edge 7999, S 80001", (7_999, 80_001), [99, 99, 90], 0),
    ("edge 8000, S 80000", (8_000, 80_000), [125, 90, 90], 64),
    ("edge 8000, S 80001", (8_000, 80_001), [90, 90, 90], 0),
    ("edge 2000, S 8000", (2_000, 8_000), [140, 138, 128], 0),
    ("edge 2000, S 8001", (2_000, 8_001), [142, 138, 129], 64),
    ("edges and S below 8000", (1_727, 4_655), [150, 150, 137], 0),
    (
        "edges and S below 8000, longer spans",
        (1_727, 4_647),
        [151, 151, 137],
        64,
    ),
    (
        "a corner by one of its edges, S above 8000, edge 7999",
        (7_999, 17_534),
        [182, 200, 168],
        0,
    ),
    (
        "a corner by one of its edges, S above 8000, edge 7999 and too thin",
        (7_999, 17_530),
        [182, 201, 168],
        64,
    ),
    (
        "a corner by one of its edges, S above 8000, edge 8000",
        (8_000, 17_531),
        [165, 182, 168],
        0,
    ),
];

/// Between edge beams alone S is the α of x line 0.
const OUTER_LINES_ONLY: [(&str, Alphas, Least, u128); 12] = [
    (
        "edge beams only, fy 280, edge 7999",
        (7_999, 7_999),
        [160, 160, 147],
        0,
    ),
    (
        "edge beams only, fy 280, edge 7999 and too thin",
        (7_999, 7_999),
        [161, 161, 148],
        64,
    ),
    (
        "edge beams only, fy 280, edge 8000",
        (8_000, 8_000),
        [148, 148, 148],
        0,
    ),
    (
        "edge beams only, fy 420, edge 7999",
        (7_999, 7_999),
        [180, 180, 164],
        0,
    ),
    (
        "edge beams only, fy 420, edge 7999 and too thin",
        (7_999, 7_999),
        [181, 181, 165],
        64,
    ),
    (
        "edge beams only, fy 420, edge 8000",
        (8_000, 8_000),
        [165, 165, 165],
        0,
    ),
    (
        "edge beams only, fy 520, edge 7999",
        (7_999, 7_999),
        [190, 190, 172],
        0,
    ),
    (
        "edge beams only, fy 520, edge 7999 and too thin",
        (7_999, 7_999),
        [191, 191, 173],
        64,
    ),
    (
        "edge beams only, fy 520, edge 8000",
        (8_000, 8_000),
        [173, 173, 173],
        0,
    ),
    (
        "a corner by one of its edges, edge beams only, edge 7999",
        (7_999, 7_999),
        [154, 180, 140],
        0,
    ),
    (
        "a corner by one of its edges, edge beams only, edge 7999 and too thin",
        (7_999, 7_999),
        [154, 181, 140],
        64,
    ),
    (
        "a corner by one of its edges, edge beams only, edge 8000",
        (8_000, 8_000),
        [140, 165, 140],
        0,
    ),
];

fn floor(words: &str) -> &'static [u8] {
    let mut floors = all_floors().iter();
    let described = format!("weak edges, {words}");
    let found = floors.find(|floor| floor.description == described);
    &found
        .unwrap_or_else(|| panic!("no floor {described}"))
        .bytes
}

#[test]
fn edges_and_their_panels() {
    for (words, alphas, least, verdict) in EVERYWHERE.into_iter().chain(OUTER_LINES_ONLY) {
        let floor = floor(words);
        let (x, y) = (x_line_alphas(floor), y_line_alphas(floor));
        assert_eq!((x[0], x[0] + x[1] + y[1] + y[2]), alphas, "{words}");
        let panels = [(1, 0), (0, 0), (1, 1)].map(|(i, j)| panel(floor, i, j));
        assert_eq!(panels, least.map(|t| (0, t)), "{words}");
        assert_eq!(judge(floor), (0, verdict), "{words}");
    }
}

#[test]
fn all_are_looked_at() {
    let listed = |floor: &&cases::floors::Described| floor.description.starts_with("weak edges");
    let count = all_floors().iter().filter(listed).count();
    // Each along x and across.
    assert_eq!(count, 2 * (EVERYWHERE.len() + OUTER_LINES_ONLY.len()));
}

/// "for columns, walls and masonry edges alike": in both layouts the south side is each of them where the edge
/// is weak and breaks the limit, where it is weak and does not, and where it is strong.
#[test]
fn weak_edges_at_every_sort_of_side() {
    let mut seen = BTreeSet::new();
    for (words, (alpha, _), _, verdict) in EVERYWHERE.into_iter().chain(OUTER_LINES_ONLY) {
        let south = Floor::of(floor(words)).unwrap().sides / 16;
        let edge_beams_only = words.contains("edge beams only");
        seen.insert((edge_beams_only, south, alpha < 8_000, verdict));
    }
    for edge_beams_only in [false, true] {
        for south in 0..3 {
            for (weak, verdict) in [(true, 0), (true, 64), (false, 0)] {
                let sort = (edge_beams_only, south, weak, verdict);
                assert!(seen.contains(&sort), "{sort:?}");
            }
        }
    }
}
