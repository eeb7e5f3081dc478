//! Floors that break every limit at every place that they have.

use super::Described;
use floor::Floor;

/// As few bays as there can be, the fewest with neighbours, unlike ones, as many as there can be.
const BAYS: [(usize, usize); 5] = [(1, 1), (2, 2), (5, 3), (12, 2), (12, 12)];

/// Along x and across.
pub fn floors() -> Vec<Described> {
    let mut floors = Vec::new();
    for (nx, ny) in BAYS {
        let along = all_broken(nx, ny);
        let words = format!("broken everywhere, {nx}x{ny}");
        floors.push(Described::floor(
            format!("{words}, across"),
            &along.transposed(),
        ));
        floors.push(Described::floor(words, &along));
    }
    floors
}

/// 2: 3,060 is more than twice 1,520. 4: 3·(4,600 − 3,060) is 4,620 and 3·(1,520 − 1,000) is 1,560. 8: 10·461 is 4,610
/// and 10·153 is 1,530. 32: q is many times p. 64: S is not above 80000, so that every panel asks for 125. Bays enough
/// keep 1, and 4 asks for two of them.
pub fn all_broken(nx: usize, ny: usize) -> Floor {
    Floor {
        t: 90,
        dead: 1_000,
        live: 2_001,
        cx: 200,
        cy: 200,
        x_spans: by_turns([3_060, 4_600], nx),
        y_spans: by_turns([1_000, 1_520], ny),
        x_lines: vec![(150, 91); ny + 1],
        y_lines: vec![(150, 200); nx + 1],
        offsets: vec![(461, 153); (nx + 1) * (ny + 1)],
        ..Floor::good(nx, ny)
    }
}

fn by_turns(spans: [u32; 2], bays: usize) -> Vec<u32> {
    spans.into_iter().cycle().take(bays).collect()
}
