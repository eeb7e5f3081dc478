//! The rules of 01, requests One to Five of 02, *Later changes to the base*, and the list of broken places beyond
//! them, written as plainly as they read.
//!
//! Speed and memory count for nothing here. Each rule stands under the sentence of 01 or 02 it follows,
//! and every number is a `u128`, or an `i128` where it may fall below 0, far wider than any value of
//! 01, so no rule needs a word on overflow. The inputs that programs are held against it on are in
//! `host/cases`.

pub mod change;
pub mod clear;
pub mod floor_file;
pub mod frame;
pub mod governing;
pub mod held;
pub mod layout;
pub mod moments;
pub mod named;
pub mod opening;
pub mod panel;
pub mod places;
pub mod refusals;
pub mod schedule;
pub mod sheet;
pub mod span;
pub mod steel;
pub mod stiffness;
pub mod strips;
pub mod table;
pub mod thickness;
pub mod verdict;
