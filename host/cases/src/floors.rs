//! Floors to hold the printing program against. What has to be printed for them is worked out, never
//! written here.

pub mod all_broken;
mod beams;
pub mod drawn;
mod edges;
pub mod long;
pub mod refused;
pub mod scattered;
pub mod schedules;
pub mod single;
pub mod small;
mod spoilt;
pub mod tied;
pub mod weak;

use crate::draw::Draw;
use drawn::Wanted;
use floor::Floor;
use reference::layout::Layout;

#[derive(Clone, Debug)]
pub struct Described {
    pub description: String,
    pub bytes: Vec<u8>,
}

impl Described {
    fn floor(description: impl Into<String>, floor: &Floor) -> Described {
        Described::bytes(description, floor.bytes())
    }

    fn bytes(description: impl Into<String>, bytes: Vec<u8>) -> Described {
        Described {
            description: description.into(),
            bytes,
        }
    }
}

pub const LAYOUTS: [(Layout, &str); 3] = [
    (Layout::Everywhere, "beams everywhere"),
    (Layout::OuterLinesOnly, "beams on the outer lines"),
    (Layout::NoBeams, "no beams"),
];

pub fn all() -> Vec<Described> {
    [
        clear_by_sides(),
        clear_by_size(),
        small::floors(),
        edges::floors(),
        spoilt::floors(),
        tied::floors(),
        all_broken::floors(),
        scattered::floors(),
        schedules::floors(),
        refused::floors(),
    ]
    .into_iter()
    .flatten()
    .collect()
}

/// "each 0 columns, 1 unrestrained, 2 fully restrained": every choice for the four sides.
fn sums_of_sides() -> Vec<u32> {
    let mut sums = Vec::new();
    for north in 0..=2 {
        for south in 0..=2 {
            for east in 0..=2 {
                for west in 0..=2 {
                    sums.push(west + 4 * east + 16 * south + 64 * north);
                }
            }
        }
    }
    sums
}

/// Clear floors with every choice of sides, the layout another one from each to the next.
fn clear_by_sides() -> Vec<Described> {
    let mut draw = Draw::starting_at(1);
    let mut floors = Vec::new();
    for (number, sides) in sums_of_sides().into_iter().enumerate() {
        let (layout, words) = LAYOUTS[number % 3];
        let nx = draw.between(3, 7);
        let ny = draw.between(3, 7);
        let wanted = Wanted {
            nx,
            ny,
            layout,
            sides,
        };
        floors.push(Described::floor(
            format!("clear, sides {sides}, {nx}x{ny}, {words}"),
            &drawn::clear(&mut draw, wanted),
        ));
    }
    floors
}

/// Bays of the clear floors that are drawn for their size, each in every layout.
const SIZES: [(usize, usize); 24] = [
    (3, 3),
    (3, 3),
    (3, 4),
    (4, 3),
    (4, 4),
    (5, 4),
    (4, 5),
    (3, 6),
    (6, 3),
    (6, 6),
    (3, 8),
    (8, 4),
    (7, 7),
    (9, 5),
    (5, 9),
    (3, 12),
    (12, 3),
    (10, 8),
    (8, 11),
    (11, 11),
    (12, 7),
    (7, 12),
    (12, 12),
    (12, 12),
];

/// Clear floors of every size, their sides drawn.
fn clear_by_size() -> Vec<Described> {
    let mut draw = Draw::starting_at(2);
    let sums = sums_of_sides();
    let mut floors = Vec::new();
    for (number, (nx, ny)) in (1..).zip(SIZES) {
        for (layout, words) in LAYOUTS {
            let wanted = Wanted {
                nx,
                ny,
                layout,
                sides: draw.one_of(&sums),
            };
            floors.push(Described::floor(
                format!("clear, size {number}, {nx}x{ny}, {words}"),
                &drawn::clear(&mut draw, wanted),
            ));
        }
    }
    floors
}
