//! The command, by what it prints and how it ends, and the text form beneath it.

mod change;
mod change_runs;
mod check;
mod clear;
mod culprits;
mod faults;
mod folds;
mod garage;
mod help;
mod inputs;
mod layers;
mod page;
mod places;
mod plain;
mod reader;
mod round_trip;
mod run;
mod schedule;
mod schedule_refused;
mod sheet;
mod sheet_form;
mod sheet_parts;
mod statuses;
mod unfold;
mod units;
