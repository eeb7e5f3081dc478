//! Refusals 5 to 7, on a floor's numbers.

use crate::floor::{Beam, Floor, X, Y};

/// "beams on every line; on the four outer lines only; on none"
#[derive(Clone, Copy, PartialEq, Eq)]
pub enum Layout {
    Everywhere,
    OuterLines,
    NoBeams,
}

pub fn judge(floor: &Floor) -> Result<Layout, u32> {
    // 5: "some value is out of range, or one beam size alone is 0"
    if !values_in_range(floor) {
        return Err(5);
    }
    // 6: "2cx exceeds an x span, or 2cy a y span"
    let narrow = |way: usize| {
        let shortest = floor.spans(way).iter().min();
        shortest.is_some_and(|&span| 2 * floor.column[way] > span)
    };
    if narrow(X) || narrow(Y) {
        return Err(6);
    }
    // 7: "layout not allowed, or a line has a beam whose depth is not above t"
    let shallow = |beam: &Beam| beam.is_there() && beam.depth <= floor.t;
    if [X, Y]
        .iter()
        .any(|&way| floor.beams(way).iter().any(shallow))
    {
        return Err(7);
    }
    layout(floor).ok_or(7)
}

fn values_in_range(floor: &Floor) -> bool {
    // "a digit 3, or a sum above 170, is out of range"
    let sides = floor.sides <= 170 && floor.sides & floor.sides >> 1 & 0b01010101 == 0;
    materials_in_range(floor.fc, floor.fy)
        && (1_000..=30_000).contains(&floor.dead)
        && floor.live <= 50_000
        && floor
            .column
            .iter()
            .all(|side| (200..=1_500).contains(side) && side % 10 == 0)
        && sides
        && [X, Y].iter().all(|&way| direction_in_range(floor, way))
}

pub fn materials_in_range(fc: u32, fy: u32) -> bool {
    (20..=60).contains(&fc) && matches!(fy, 280 | 420 | 520)
}

fn direction_in_range(floor: &Floor, way: usize) -> bool {
    let span = |&span: &u32| (1_000..=12_000).contains(&span) && span % 20 == 0;
    let beam = |beam: &Beam| match (beam.width, beam.depth) {
        (0, 0) => true,
        (width, depth) => (150..=1_000).contains(&width) && (91..=1_500).contains(&depth),
    };
    // Over all of them without a way out, which the compiler makes into wide instructions.
    let largest_offset = floor
        .offsets(way)
        .iter()
        .fold(0, |most, &size| size.max(most));
    largest_offset <= 12_000
        && floor.spans(way).iter().all(span)
        && floor.beams(way).iter().all(beam)
}

/// "Where the first two coincide the floor counts as beams everywhere."
fn layout(floor: &Floor) -> Option<Layout> {
    let [mut inner, mut inner_lines, mut outer] = [0; 3];
    for way in [X, Y] {
        let beams = floor.beams(way);
        let there = |beams: &[Beam]| beams.iter().filter(|beam| beam.is_there()).count();
        let last = beams.len() - 1;
        inner += there(&beams[1..last]);
        inner_lines += last - 1;
        outer += there(&[beams[0], beams[last]]);
    }
    match (outer, inner) {
        (4, inner) if inner == inner_lines => Some(Layout::Everywhere),
        (4, 0) => Some(Layout::OuterLines),
        (0, 0) => Some(Layout::NoBeams),
        _ => None,
    }
}
