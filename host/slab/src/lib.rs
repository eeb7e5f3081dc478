//! The command `slab`: a floor file from text and back, and what the proved library says of it, in words.
//!
//! Nothing is judged here. Refusals, verdicts, places, moments, bars, yes or no and thicknesses are the library's answers; text and file are two
//! ways of writing the same numbers, in range or not.

pub mod commands;
pub mod given;
pub mod input;
pub mod judge;
pub mod output;
pub mod say;
pub mod sheet;
pub mod text;
pub mod way;
