//! The two directions of a floor.

use floor::Floor;

#[derive(Clone, Copy, Debug, PartialEq, Eq)]
pub enum Way {
    X,
    Y,
}

impl Way {
    pub fn name(self) -> &'static str {
        match self {
            Way::X => "x",
            Way::Y => "y",
        }
    }

    pub fn across(self) -> Way {
        match self {
            Way::X => Way::Y,
            Way::Y => Way::X,
        }
    }

    /// Where it comes from and where it goes to.
    pub fn ends(self) -> [&'static str; 2] {
        match self {
            Way::X => ["west", "east"],
            Way::Y => ["south", "north"],
        }
    }

    pub fn spans(self, floor: &Floor) -> &[u32] {
        match self {
            Way::X => &floor.x_spans,
            Way::Y => &floor.y_spans,
        }
    }

    /// How many lines run along it: one more than there are spans across.
    pub fn lines(self, floor: &Floor) -> usize {
        self.across().spans(floor).len() + 1
    }
}
