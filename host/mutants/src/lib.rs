//! Mutants: small changes of a crate's code, each put to the prover, which must refuse those that change what the code does.

pub mod callees;
pub mod catalogue;
pub mod change;
pub mod declared;
pub mod exchanges;
pub mod imports;
pub mod items;
pub mod kept;
pub mod kit;
pub mod lexer;
pub mod names;
pub mod numbers;
pub mod outcome;
pub mod prover;
pub mod run;
pub mod signs;
pub mod statements;
pub mod twins;
