//! Single panels past a limit.

use super::{clear, Single};
use floor::Floor;
use reference::layout::Layout;

/// The first, the last of the first row, one in the middle, the first of the last row, the last.
fn places((nx, ny): (usize, usize)) -> [(usize, usize); 5] {
    let (i, j) = (nx - 1, ny - 1);
    [(0, 0), (i, 0), (nx / 2, ny / 2), (0, j), (i, j)]
}

/// 2: "in a panel, longer span > 2·shorter." 6,020 is more than twice 3,000 and less than twice 3,020.
pub fn long((nx, ny): (usize, usize), layout: Layout) -> Vec<Single> {
    let single = |(i, j): (usize, usize)| {
        let mut at = clear((nx, ny), layout);
        at.y_spans.fill(3_020);
        at.y_spans[j] = 3_000;
        let words = format!("length of panel {i}, {j}");
        Single::of(2, words, at, |past| past.x_spans[i] = 6_020)
    };
    places((nx, ny)).map(single).to_vec()
}

/// Width and depth of the beams on outer lines, and on inner ones.
type Beams = [(u32, u32); 2];

fn put(lines: &mut [(u32, u32)], line: usize, [outer, inner]: Beams) {
    let last = lines.len() - 1;
    lines[line] = if line == 0 || line == last {
        outer
    } else {
        inner
    };
}

/// Other beams on the four lines of one panel than on all others.
fn with_panel(floor: &mut Floor, (i, j): (usize, usize), on_x: Beams, on_y: Beams) {
    for line in [0, 1] {
        put(&mut floor.x_lines, j + line, on_x);
        put(&mut floor.y_lines, i + line, on_y);
    }
}

/// Under a slab of 200, over spans of 3,000 and between columns of 1,500: α is 33,250, and a fifth of that. Beams of
/// 400 by 400, on all other lines, lie between the two.
const STIFF: Beams = [(505, 460), (890, 420)];
const WEAK: Beams = [(350, 310), (645, 280)];

/// 32: "p > 5q or q > 5p", for p = 5q in one panel until a beam is a mm wider.
pub fn unlike((nx, ny): (usize, usize), layout: Layout) -> Vec<Single> {
    if layout != Layout::Everywhere {
        return Vec::new();
    }
    let single = |(i, j): (usize, usize)| {
        let mut at = Floor {
            cx: 1_500,
            cy: 1_500,
            x_spans: vec![3_000; nx],
            y_spans: vec![3_000; ny],
            x_lines: vec![(400, 400); ny + 1],
            y_lines: vec![(400, 400); nx + 1],
            ..Floor::clear(nx, ny)
        };
        with_panel(&mut at, (i, j), STIFF, WEAK);
        let words = format!("stiffness of panel {i}, {j}");
        Single::of(32, words, at, |past| past.x_lines[j].0 += 1)
    };
    places((nx, ny)).map(single).to_vec()
}

/// 64: "t below some panel's least thickness."
pub fn thin(bays: (usize, usize), layout: Layout) -> Vec<Single> {
    match layout {
        Layout::Everywhere => [thin_by_spans(bays), thin_by_beams(bays)].concat(),
        Layout::OuterLinesOnly => thin_at_a_weak_edge(bays),
        Layout::NoBeams => thin_without_beams(bays),
    }
}

/// S is above 80000, and 1400·110·45 is 4500·1540. A panel of 4,520 by 4,400 asks for 109.9, of 4,520 by 4,520 for
/// 110.5.
fn thin_by_spans((nx, ny): (usize, usize)) -> Vec<Single> {
    let single = |(i, j): (usize, usize)| {
        let mut at = Floor {
            t: 110,
            x_spans: vec![4_800; nx],
            y_spans: vec![4_800; ny],
            ..clear((nx, ny), Layout::Everywhere)
        };
        (at.x_spans[i], at.y_spans[j]) = (4_900, 4_900);
        let words = format!("thickness of panel {i}, {j} by its spans");
        Single::of(64, words, at, |past| {
            (past.x_spans[i], past.y_spans[j]) = (4_920, 4_920);
        })
    };
    places((nx, ny)).map(single).to_vec()
}

/// Under a slab of 156, over spans of 6,000 and between columns of 400: α is about 9,000 and about 30,000.
const LOW: Beams = [(280, 316), (335, 351)];
const HIGH: Beams = [(485, 396), (295, 516)];

/// S is about 36000 in one panel, which asks for 156, and 57000 or more in the others, which ask for 147 at most.
fn thin_by_beams((nx, ny): (usize, usize)) -> Vec<Single> {
    let single = |(i, j): (usize, usize)| {
        let mut at = Floor {
            t: 156,
            ..clear((nx, ny), Layout::Everywhere)
        };
        for line in 0..=ny {
            put(&mut at.x_lines, line, HIGH);
        }
        for line in 0..=nx {
            put(&mut at.y_lines, line, HIGH);
        }
        with_panel(&mut at, (i, j), LOW, LOW);
        let words = format!("thickness of panel {i}, {j} by its beams");
        Single::of(64, words, at, |past| past.t -= 1)
    };
    places((nx, ny)).map(single).to_vec()
}

/// α 7,999 on an outer x line under a slab of 200, over y spans of 6,000.
const WEAK_EDGE: (u32, u32) = (901, 279);

/// 30·200 is 6,400 − 400, in the panel between the weak line and the longest bay; the others ask for a thirty-third.
/// No inner panel can be the only one: those beside it have a longer span as well.
fn thin_at_a_weak_edge((nx, ny): (usize, usize)) -> Vec<Single> {
    let mut singles = Vec::new();
    for (line, j) in [(0, 0), (ny, ny - 1)] {
        for i in [0, nx / 2, nx - 1] {
            let mut at = clear((nx, ny), Layout::OuterLinesOnly);
            at.x_lines[line] = WEAK_EDGE;
            at.x_spans[i] = 6_400;
            let words = format!("thickness of panel {i}, {j} by a weak edge");
            singles.push(Single::of(64, words, at, |past| past.x_spans[i] = 6_420));
        }
    }
    singles
}

/// 30·200 is 6,400 − 400. An outer panel asks for a thirtieth of its longer span, which another outer one has too: those
/// at both ends of an inner bay, or all of an outer one. Inner panels ask for a thirty-third.
fn thin_without_beams((nx, ny): (usize, usize)) -> Vec<Single> {
    let mut singles = Vec::new();
    for (i, places) in [(0, ny), (1, 2), (nx - 2, 2), (nx - 1, ny)] {
        let mut at = clear((nx, ny), Layout::NoBeams);
        at.x_spans[i] = 6_400;
        let words = format!("thickness in x bay {i}");
        let single = Single::of(64, words, at, |past| past.x_spans[i] = 6_420);
        singles.push(Single { places, ..single });
    }
    singles
}
