//! The seven calls of the static library (`include/gandhrumil.h`), as safe functions of slices.
//!
//! Every call takes any bytes, any lengths and any numbers. What each answers and writes is said in the header, and proved.

mod calls;

pub use calls::Answer;

/// `GANDHRUMIL_VERSION` of the header whose calls these are (docs/CHANGES.md).
pub const VERSION: u32 = 8;

/// `GANDHRUMIL_PLACES_LEN`: numbers enough for the places of any floor.
pub const PLACES_LEN: usize = 3_172;

/// `GANDHRUMIL_SCHEDULE_LEN`: bytes enough for the schedule of any floor.
pub const SCHEDULE_LEN: usize = 59_904;

/// Opens a floor and fills its table, and the governing moments beside it.
pub fn open(floor: &[u8], table: &mut [u32], governing: &mut [u32]) -> Answer {
    // SAFETY: the three slices are lent for the call, with their own lengths, and cannot overlap.
    unsafe {
        calls::gandhrumil_open(
            floor.as_ptr(),
            floor.len(),
            table.as_mut_ptr(),
            table.len(),
            governing.as_mut_ptr(),
            governing.len(),
        )
    }
}

/// Changes one record of a floor, and with it its table and the governing moments.
pub fn change(floor: &mut [u8], table: &mut [u32], governing: &mut [u32], change: &[u8]) -> Answer {
    // SAFETY: the four slices are lent for the call, with their own lengths, and cannot overlap.
    unsafe {
        calls::gandhrumil_change(
            floor.as_mut_ptr(),
            floor.len(),
            table.as_mut_ptr(),
            table.len(),
            governing.as_mut_ptr(),
            governing.len(),
            change.as_ptr(),
            change.len(),
        )
    }
}

/// The least thickness of the panel of x bay `x` and y bay `y`.
pub fn panel(floor: &[u8], x: u64, y: u64) -> Answer {
    // SAFETY: the slice is lent for the call, with its own length.
    unsafe { calls::gandhrumil_panel(floor.as_ptr(), floor.len(), x, y) }
}

/// Whether a floor is clear: 1 yes, 0 no.
pub fn clear(floor: &[u8]) -> Answer {
    // SAFETY: the slice is lent for the call, with its own length.
    unsafe { calls::gandhrumil_clear(floor.as_ptr(), floor.len()) }
}

/// Where a floor breaks the limits: of each place limit, direction, i, j.
pub fn places(floor: &[u8], places: &mut [u32]) -> Answer {
    // SAFETY: the two slices are lent for the call, with their own lengths, and cannot overlap.
    unsafe {
        calls::gandhrumil_places(
            floor.as_ptr(),
            floor.len(),
            places.as_mut_ptr(),
            places.len(),
        )
    }
}

/// The bar schedule of a clear floor: of each section and strip a record of 32 bytes, with the bars along x
/// next to the faces of the slab and those along y inside them.
pub fn schedule(floor: &[u8], schedule: &mut [u8]) -> Answer {
    // SAFETY: the two slices are lent for the call, with their own lengths, and cannot overlap.
    unsafe {
        calls::gandhrumil_schedule(
            floor.as_ptr(),
            floor.len(),
            schedule.as_mut_ptr(),
            schedule.len(),
        )
    }
}

/// A steel query: the moment in N·cm; width, thickness and depth in mm; concrete and steel in MPa.
#[derive(Clone, Copy, Debug, PartialEq, Eq)]
pub struct Query {
    pub m: u64,
    pub b: u64,
    pub t: u64,
    /// Or 0 for t − 38, the second of two layers of bars. The first, next to the face of the slab, is t − 26.
    pub d: u64,
    pub fc: u64,
    pub fy: u64,
}

/// The least area of steel that carries the moment within the limits.
pub fn steel(query: Query) -> Answer {
    let Query { m, b, t, d, fc, fy } = query;
    // SAFETY: the call takes any numbers and touches no memory.
    unsafe { calls::gandhrumil_steel(m, b, t, d, fc, fy) }
}
