//! What the library answers, in words that are as true as 01: equality always passes.

pub mod change;
pub mod clear;
mod culprits;
mod folds;
pub mod limits;
mod numbers;
mod panels;
mod picks;
mod places;
mod records;
pub mod refusal;
mod sentences;
pub mod verdict;
