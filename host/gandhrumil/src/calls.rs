//! `include/gandhrumil.h`, line by line.

/// A refusal's number with 255 or 0 beside it, or 0 with what was asked.
#[repr(C)]
#[derive(Clone, Copy, Debug, PartialEq, Eq)]
pub struct Answer {
    pub refusal: u32,
    pub value: u32,
}

extern "C" {
    pub fn gandhrumil_open(
        floor: *const u8,
        floor_len: usize,
        table: *mut u32,
        table_len: usize,
        governing: *mut u32,
        governing_len: usize,
    ) -> Answer;

    pub fn gandhrumil_change(
        floor: *mut u8,
        floor_len: usize,
        table: *mut u32,
        table_len: usize,
        governing: *mut u32,
        governing_len: usize,
        change: *const u8,
        change_len: usize,
    ) -> Answer;

    pub fn gandhrumil_panel(floor: *const u8, floor_len: usize, x: u64, y: u64) -> Answer;

    pub fn gandhrumil_clear(floor: *const u8, floor_len: usize) -> Answer;

    pub fn gandhrumil_places(
        floor: *const u8,
        floor_len: usize,
        places: *mut u32,
        places_len: usize,
    ) -> Answer;

    pub fn gandhrumil_schedule(
        floor: *const u8,
        floor_len: usize,
        schedule: *mut u8,
        schedule_len: usize,
    ) -> Answer;

    pub fn gandhrumil_steel(m: u64, b: u64, t: u64, d: u64, fc: u64, fy: u64) -> Answer;
}
