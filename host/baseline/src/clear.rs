//! "Give a yes or no that stops at the first broken limit" (02, Four): each limit is the verdict's own.

use crate::floor::{Floor, MOST_BAYS, X, Y};
use crate::judge::Layout;
use crate::lines::alpha;
use crate::thickness::{too_thin_without, Bay, Slab};
use crate::verdict::{
    apart, sum_by_square, too_different, too_far_off, too_few, too_heavy, too_long, wider,
};

/// By what they cost: loads and spans first, then the panels with the α that they need, then every column.
pub fn clear(floor: &Floor, layout: Layout) -> bool {
    !(too_few(floor)
        || too_heavy(floor)
        || too_long(floor)
        || too_different(floor.spans(X))
        || too_different(floor.spans(Y))
        || a_panel_breaks(floor, layout)
        || too_far_off(floor, X)
        || too_far_off(floor, Y))
}

/// 32 and 64, neither of which needs an α where there is no beam.
fn a_panel_breaks(floor: &Floor, layout: Layout) -> bool {
    match layout {
        Layout::NoBeams => too_thin_without(floor),
        _ => a_panel_with_beams_breaks(floor, layout),
    }
}

/// In turn, each with its p or its q of limit 32, 0 where there are not beams everywhere. α of a line is worked out
/// when a bay beside it is come to.
fn bays(floor: &Floor, layout: Layout, way: usize) -> impl Iterator<Item = (Bay, u64)> + '_ {
    let mut low = alpha(floor, 1 - way, 0);
    let spans = floor.spans(way).iter().enumerate();
    spans.map(move |(number, &span)| {
        let high = alpha(floor, 1 - way, number + 1);
        let bay = Bay::of(floor, layout, way, number, [low, high]);
        low = high;
        (bay, sum_by_square(bay.beside, span))
    })
}

/// Row by row from panel 0, 0: the first row comes to the columns, and the others find them there.
fn a_panel_with_beams_breaks(floor: &Floor, layout: Layout) -> bool {
    let slab = Slab::of(floor);
    let mut rows = bays(floor, layout, Y);
    let Some((first, p)) = rows.next() else {
        return false;
    };
    let mut columns = [Bay::default(); MOST_BAYS];
    let columns = &mut columns[..floor.bays[X]];
    let mut qs = (u64::MAX, 0);
    for (place, (column, q)) in columns.iter_mut().zip(bays(floor, layout, X)) {
        qs = wider(qs, q);
        if apart((p, p), qs) || slab.thin(&column, &first) {
            return true;
        }
        *place = column;
    }
    rows.any(|(row, p)| apart((p, p), qs) || columns.iter().any(|column| slab.thin(column, &row)))
}
