//! The static library held against the independent implementation, on floors, changes and steel queries
//! that are drawn.
//!
//! Work comes in parts, a part in numbered cases. Each case draws from a sequence of its own, so that seed,
//! part and number bring it back, and how many threads there are alters nothing.

pub mod case;
pub mod clear;
pub mod floors;
pub mod job;
pub mod lent;
pub mod page;
pub mod panels;
pub mod places;
pub mod report;
pub mod runs;
pub mod same;
pub mod schedules;
pub mod steel;
pub mod tally;
pub mod variety;
pub mod work;
