//! A floor's numbers, and the floor file that holds them (01, "The floor file").
//!
//! Nothing is judged here. The reference reads floor files by itself, from 01 alone.

mod edit;
mod examples;
mod file;
mod record;

pub use edit::{held, last_index, record, value, with, with_swapped, Field};
pub use file::{Floor, MOST_COLUMNS, NO_BEAM};
pub use record::{Record, RECORD_BYTES};
