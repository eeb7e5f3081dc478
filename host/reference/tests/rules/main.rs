//! What 01 says, written down by hand and held against the code.

mod bars;
mod changes;
mod clear;
mod floors;
mod fraction;
mod governing;
mod hand_made;
mod held;
mod layouts;
mod moments;
mod named;
mod opening;
mod panel;
mod places;
mod ranges;
mod schedule;
mod sheet;
mod steel;
mod steel_by_code;
mod stiffness;
mod strips;
mod table;
mod thickness;
mod verdict;
