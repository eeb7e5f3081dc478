//! The Rattle programs that read standard input, held against what they have to print.

mod figures;
mod print;
mod streams;
