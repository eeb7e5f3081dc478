//! "The verdict": each limit answers whether it is broken.

use crate::floor::{Floor, MOST_BAYS, MOST_LINES, X, Y};
use crate::judge::Layout;
use crate::lines::Stiffness;
use crate::thickness::too_thin;

pub fn verdict(floor: &Floor, layout: Layout, stiffness: &Stiffness) -> u32 {
    u32::from(too_few(floor))
        + 2 * u32::from(too_long(floor))
        + 4 * u32::from(too_different(floor.spans(X)) || too_different(floor.spans(Y)))
        + 8 * u32::from(too_far_off(floor, X) || too_far_off(floor, Y))
        + 16 * u32::from(too_heavy(floor))
        + 32 * u32::from(layout == Layout::Everywhere && too_unlike(floor, stiffness))
        + 64 * u32::from(too_thin(floor, layout, stiffness))
}

/// The least and the largest.
pub fn ends<T: Ord + Copy>(numbers: &[T]) -> (T, T) {
    let first = (numbers[0], numbers[0]);
    numbers.iter().copied().fold(first, wider)
}

/// The least and the largest with one number more.
pub fn wider<T: Ord + Copy>((least, most): (T, T), number: T) -> (T, T) {
    (number.min(least), number.max(most))
}

/// 1: "nx or ny below 3."
pub fn too_few(floor: &Floor) -> bool {
    floor.bays[X] < 3 || floor.bays[Y] < 3
}

/// 2: "in a panel, longer span > 2·shorter." Every x span meets every y span in a panel.
pub fn too_long(floor: &Floor) -> bool {
    let (least_x, most_x) = ends(floor.spans(X));
    let (least_y, most_y) = ends(floor.spans(Y));
    most_x > 2 * least_y || most_y > 2 * least_x
}

/// 4: "for neighbouring spans in a direction, 3(longer − shorter) > longer."
pub fn too_different(spans: &[u32]) -> bool {
    spans.windows(2).any(different)
}

/// Of two neighbours.
pub fn different(pair: &[u32]) -> bool {
    let (shorter, longer) = ends(pair);
    3 * (longer - shorter) > longer
}

/// The shorter span that adjoins each line across the direction of the spans.
pub fn shorter_adjoining(spans: &[u32]) -> [u32; MOST_LINES] {
    let mut adjoining = [u32::MAX; MOST_LINES];
    for (bay, &span) in spans.iter().enumerate() {
        adjoining[bay] = adjoining[bay].min(span);
        adjoining[bay + 1] = span;
    }
    adjoining
}

/// Of one column and the shorter span that adjoins it.
pub fn far(offset: u32, span: u32) -> bool {
    10 * offset > span
}

/// 8: "ten times an offset exceeds a span adjoining that column in its direction."
pub fn too_far_off(floor: &Floor, way: usize) -> bool {
    let adjoining = shorter_adjoining(floor.spans(way));
    let rows = floor.offsets(way).chunks_exact(floor.lines(Y));
    if way == X {
        let row_far = |row: &[u32]| {
            let columns = row.iter().zip(&adjoining);
            columns.fold(false, |some, (&offset, &span)| some | far(offset, span))
        };
        rows.fold(false, |some, row| some | row_far(row))
    } else {
        let row_most = |row: &[u32]| row.iter().fold(0, |most, &offset| offset.max(most));
        rows.zip(adjoining)
            .any(|(row, span)| far(row_most(row), span))
    }
}

/// 16: "L > 2D."
pub fn too_heavy(floor: &Floor) -> bool {
    floor.live > 2 * floor.dead
}

/// "(sum of α of its two x lines)·Y²", of a bay that lies between the two lines.
pub fn sum_by_square(beside: u64, span: u32) -> u64 {
    beside * u64::from(span).pow(2)
}

/// "p > 5q or q > 5p", of the panels in which each p meets each q: the least and the largest of either decide.
pub fn apart((least_p, most_p): (u64, u64), (least_q, most_q): (u64, u64)) -> bool {
    most_p > 5 * least_q || most_q > 5 * least_p
}

/// 32: "in a panel p > 5q or q > 5p": p is the same along a row of panels and q along a column of them.
fn too_unlike(floor: &Floor, stiffness: &Stiffness) -> bool {
    let (p, q) = sums_by_squares(floor, stiffness);
    apart(ends(&p[..floor.bays[Y]]), ends(&q[..floor.bays[X]]))
}

/// p of each y bay and q of each x bay.
pub fn sums_by_squares(
    floor: &Floor,
    Stiffness([x, y]): &Stiffness,
) -> ([u64; MOST_BAYS], [u64; MOST_BAYS]) {
    let of_bays = |alphas: &[u64], spans: &[u32]| {
        let mut sums = [0; MOST_BAYS];
        for (bay, &span) in spans.iter().enumerate() {
            sums[bay] = sum_by_square(alphas[bay] + alphas[bay + 1], span);
        }
        sums
    };
    (of_bays(x, floor.spans(Y)), of_bays(y, floor.spans(X)))
}
