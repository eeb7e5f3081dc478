//! Every place of a floor where a limit of the method is broken: a second list beside the reference's, of the floor's
//! numbers as `floor` reads them. The two have the α and the least thicknesses in common.

use floor::Floor;
use reference::layout::{layout, Layout};
use reference::panel::{least_thickness, x_line_alphas, y_line_alphas};
use reference::places;
use reference::verdict::too_unlike;

#[derive(Clone, Copy, Debug, PartialEq, Eq, PartialOrd, Ord)]
pub enum Along {
    X,
    Y,
}

#[derive(Clone, Copy, Debug, PartialEq, Eq)]
pub enum Place {
    /// All bays of a direction.
    Bays(Along),
    /// The panel of an x bay and a y bay.
    Panel(usize, usize),
    /// A span and the next one of its direction.
    Neighbours(Along, usize),
    /// An offset's direction, and the y line and the x line of the column.
    Column(Along, usize, usize),
    Loads,
}

#[derive(Clone, Copy, Debug, PartialEq, Eq)]
pub struct Broken {
    /// As the verdict counts it.
    pub limit: u128,
    pub place: Place,
}

impl Broken {
    /// "the limit (1, 2, 4, .. 64), a direction (0 x, 1 y, 0 where the limit has none), i, j"
    pub fn listed(self) -> places::Place {
        let (along, i, j) = match self.place {
            Place::Bays(along) => (along, 0, 0),
            Place::Panel(i, j) => (Along::X, i, j),
            Place::Neighbours(Along::X, low) => (Along::X, low, 0),
            Place::Neighbours(Along::Y, low) => (Along::Y, 0, low),
            Place::Column(along, i, j) => (along, i, j),
            Place::Loads => (Along::X, 0, 0),
        };
        places::Place {
            limit: self.limit,
            direction: along as u128,
            i: i as u128,
            j: j as u128,
        }
    }
}

/// Of a floor that is not refused, in the order in which they are listed.
pub fn broken(bytes: &[u8]) -> Vec<Broken> {
    let floor = Floor::of(bytes).expect("a floor that is taken");
    let of_limits = [
        (1, few_bays(&floor)),
        (2, long_panels(&floor)),
        (4, unlike_neighbours(&floor)),
        (8, stray_columns(&floor)),
        (16, heavy_loads(&floor)),
        (32, unlike_directions(&floor, bytes)),
        (64, thin_panels(&floor, bytes)),
    ];
    let mut broken = Vec::new();
    for (limit, places) in of_limits {
        let of_limit = places.into_iter().map(|place| Broken { limit, place });
        broken.extend(of_limit);
    }
    broken
}

fn directions(floor: &Floor) -> [(Along, &[u32]); 2] {
    [(Along::X, &floor.x_spans), (Along::Y, &floor.y_spans)]
}

/// Those panels of which this is so.
fn panels_where(floor: &Floor, is_so: impl Fn(usize, usize) -> bool) -> Vec<Place> {
    let mut places = Vec::new();
    for j in 0..floor.y_spans.len() {
        let of_row = (0..floor.x_spans.len()).filter(|&i| is_so(i, j));
        places.extend(of_row.map(|i| Place::Panel(i, j)));
    }
    places
}

/// 1: "nx or ny below 3."
fn few_bays(floor: &Floor) -> Vec<Place> {
    let few = directions(floor).into_iter();
    let few = few.filter(|(_, spans)| spans.len() < 3);
    few.map(|(along, _)| Place::Bays(along)).collect()
}

/// 2: "in a panel, longer span > 2·shorter."
fn long_panels(floor: &Floor) -> Vec<Place> {
    panels_where(floor, |i, j| {
        let (x, y) = (floor.x_spans[i], floor.y_spans[j]);
        x.max(y) > 2 * x.min(y)
    })
}

/// 4: "for neighbouring spans in a direction, 3(longer − shorter) > longer."
fn unlike_neighbours(floor: &Floor) -> Vec<Place> {
    let mut places = Vec::new();
    for (along, spans) in directions(floor) {
        for (low, pair) in spans.windows(2).enumerate() {
            if 3 * pair[0].abs_diff(pair[1]) > pair[0].max(pair[1]) {
                places.push(Place::Neighbours(along, low));
            }
        }
    }
    places
}

/// The shorter one of the spans that meet a line.
pub fn shorter_adjoining(line: usize, spans: &[u32]) -> u32 {
    let adjoining = &spans[line.saturating_sub(1)..spans.len().min(line + 1)];
    *adjoining.iter().min().expect("a span")
}

/// 8: "ten times an offset exceeds a span adjoining that column in its direction."
fn stray_columns(floor: &Floor) -> Vec<Place> {
    let y_lines = floor.x_spans.len() + 1;
    let (mut along_x, mut along_y) = (Vec::new(), Vec::new());
    for (index, &(x, y)) in floor.offsets.iter().enumerate() {
        let (i, j) = (index % y_lines, index / y_lines);
        if 10 * x > shorter_adjoining(i, &floor.x_spans) {
            along_x.push(Place::Column(Along::X, i, j));
        }
        if 10 * y > shorter_adjoining(j, &floor.y_spans) {
            along_y.push(Place::Column(Along::Y, i, j));
        }
    }
    [along_x, along_y].concat()
}

/// 16: "L > 2D."
fn heavy_loads(floor: &Floor) -> Vec<Place> {
    match floor.live > 2 * floor.dead {
        true => vec![Place::Loads],
        false => Vec::new(),
    }
}

/// 32: "beams everywhere, and in a panel p > 5q or q > 5p"
fn unlike_directions(floor: &Floor, bytes: &[u8]) -> Vec<Place> {
    if layout(bytes) != Some(Layout::Everywhere) {
        return Vec::new();
    }
    let (on_x, on_y) = (x_line_alphas(bytes), y_line_alphas(bytes));
    let squared = |span: u32| u128::from(span).pow(2);
    panels_where(floor, |i, j| {
        let p = (on_x[j] + on_x[j + 1]) * squared(floor.y_spans[j]);
        let q = (on_y[i] + on_y[i + 1]) * squared(floor.x_spans[i]);
        too_unlike(p, q)
    })
}

/// 64: "t below some panel's least thickness."
fn thin_panels(floor: &Floor, bytes: &[u8]) -> Vec<Place> {
    let t = u128::from(floor.t);
    panels_where(floor, |i, j| t < least_thickness(bytes, i, j))
}
