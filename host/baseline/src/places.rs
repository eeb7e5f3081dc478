//! "Where it is broken" (beyond 02): each limit by the verdict's own test, and panel by panel only where that finds
//! something.

use crate::floor::{Floor, X, Y};
use crate::judge::Layout;
use crate::lines::Stiffness;
use crate::thickness::{bays, too_thin_without, Slab};
use crate::verdict::{
    apart, different, ends, far, shorter_adjoining, sums_by_squares, too_far_off, too_heavy,
    too_long,
};

/// "the limit (1, 2, 4, .. 64), a direction (0 x, 1 y, 0 where the limit has none), i, j"
pub type Place = [u32; 4];

/// Of 12 by 12 bays: "3*144 panels (2, 32, 64), 22 neighbours (4), 2*169 columns (8), 1 (16)".
pub const MOST: usize = 3 * 144 + 22 + 2 * 169 + 1;

/// No floor of these bays has more.
pub fn most(floor: &Floor) -> usize {
    let [nx, ny] = floor.bays;
    MOST.min(2 + 3 * nx * ny + (nx - 1) + (ny - 1) + 2 * floor.columns() + 1)
}

/// The places that were come to so far.
struct List<'a> {
    room: &'a mut [Place],
    count: usize,
}

impl List<'_> {
    fn add(&mut self, limit: u32, way: usize, i: usize, j: usize) {
        self.room[self.count] = [limit, way as u32, i as u32, j as u32];
        self.count += 1;
    }

    /// Row by row.
    fn add_panels(&mut self, limit: u32, floor: &Floor, breaks: impl Fn(usize, usize) -> bool) {
        let [nx, ny] = floor.bays;
        for j in 0..ny {
            for i in 0..nx {
                if breaks(i, j) {
                    self.add(limit, X, i, j);
                }
            }
        }
    }
}

/// Writes them from the start of the room, which suffices; answers how many there are. "Order: limit, then direction,
/// then j, then i, rising."
pub fn list(floor: &Floor, layout: Layout, room: &mut [Place]) -> usize {
    let mut list = List { room, count: 0 };
    for way in [X, Y] {
        if floor.bays[way] < 3 {
            list.add(1, way, 0, 0);
        }
    }
    add_long(&mut list, floor);
    for way in [X, Y] {
        add_neighbours(&mut list, floor, way);
    }
    for way in [X, Y] {
        add_columns(&mut list, floor, way);
    }
    if too_heavy(floor) {
        list.add(16, X, 0, 0);
    }
    if layout != Layout::NoBeams || too_thin_without(floor) {
        let stiffness = Stiffness::of(floor);
        add_unbalanced(&mut list, floor, layout, &stiffness);
        add_thin(&mut list, floor, layout, &stiffness);
    }
    list.count
}

/// 2: "in a panel, longer span > 2·shorter."
fn add_long(list: &mut List, floor: &Floor) {
    if too_long(floor) {
        let (x, y) = (floor.spans(X), floor.spans(Y));
        list.add_panels(2, floor, |i, j| x[i] > 2 * y[j] || y[j] > 2 * x[i]);
    }
}

/// 4: "the lower of two neighbouring spans in its direction (i for x, j for y, the other 0)"
fn add_neighbours(list: &mut List, floor: &Floor, way: usize) {
    for (lower, pair) in floor.spans(way).windows(2).enumerate() {
        if different(pair) {
            list.add(4, way, (1 - way) * lower, way * lower);
        }
    }
}

/// 8: "the column (i, j), with the direction in which it is off"
fn add_columns(list: &mut List, floor: &Floor, way: usize) {
    if !too_far_off(floor, way) {
        return;
    }
    let adjoining = shorter_adjoining(floor.spans(way));
    let rows = floor.offsets(way).chunks_exact(floor.lines(Y));
    for (j, row) in rows.enumerate() {
        for (i, &offset) in row.iter().enumerate() {
            if far(offset, adjoining[[i, j][way]]) {
                list.add(8, way, i, j);
            }
        }
    }
}

/// 32: "beams everywhere, and in a panel p > 5q or q > 5p"
fn add_unbalanced(list: &mut List, floor: &Floor, layout: Layout, stiffness: &Stiffness) {
    if layout != Layout::Everywhere {
        return;
    }
    let (p, q) = sums_by_squares(floor, stiffness);
    let (p, q) = (&p[..floor.bays[Y]], &q[..floor.bays[X]]);
    if apart(ends(p), ends(q)) {
        list.add_panels(32, floor, |i, j| p[j] > 5 * q[i] || q[i] > 5 * p[j]);
    }
}

/// 64: "t below some panel's least thickness."
fn add_thin(list: &mut List, floor: &Floor, layout: Layout, stiffness: &Stiffness) {
    let slab = Slab::of(floor);
    let columns = bays(floor, layout, X, stiffness);
    let rows = bays(floor, layout, Y, stiffness);
    list.add_panels(64, floor, |i, j| slab.thin(&columns[i], &rows[j]));
}
