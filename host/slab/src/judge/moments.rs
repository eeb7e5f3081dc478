//! The moments of a clear floor, found in the library's table and governing slice.

use super::order;
use crate::way::Way;
use floor::Floor;

/// Total, column strip, middle strip, beam, slab, in N·cm.
pub type Section = [u32; 5];

/// "Mo, then low end, between, high end".
pub struct SpanMoments {
    /// Mo, in N·m.
    pub whole: u32,
    pub sections: [Section; 3],
}

pub struct Moments<'a> {
    floor: Floor,
    table: &'a [u32],
    governing: &'a [u32],
}

impl<'a> Moments<'a> {
    pub(super) fn of(floor: Floor, table: &'a [u32], governing: &'a [u32]) -> Moments<'a> {
        Moments {
            floor,
            table,
            governing,
        }
    }

    pub fn span(&self, way: Way, line: usize, span: usize) -> SpanMoments {
        let record = 16 * order::record(&self.floor, way, line, span);
        let section = |at: usize| five(self.table, record + at);
        SpanMoments {
            whole: self.table[record],
            sections: [1, 6, 11].map(section),
        }
    }

    /// The larger of its two faces.
    pub fn support(&self, way: Way, line: usize, support: usize) -> Section {
        let entry = order::entry(&self.floor, way, line, support);
        five(self.governing, 5 * entry)
    }
}

fn five(numbers: &[u32], start: usize) -> Section {
    std::array::from_fn(|part| numbers[start + part])
}
