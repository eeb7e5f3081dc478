//! What other programs are held against the reference on: floors, changes, steel queries and figures,
//! described one by one or drawn from a seed. What each has to answer is worked out by the reference.

pub mod draw;
pub mod figures;
pub mod floors;
pub mod garage;
pub mod morning;
pub mod places;
pub mod program;
pub mod queries;
pub mod refusals;
pub mod runs;
