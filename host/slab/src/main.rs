use slab::commands::{self, Status};
use slab::output::complain;
use std::env;
use std::ffi::OsString;
use std::process::ExitCode;

fn main() -> ExitCode {
    let words: Vec<OsString> = env::args_os().skip(1).collect();
    let status = commands::run(&words).unwrap_or_else(|trouble| {
        complain(&trouble);
        Status::Unusable
    });
    ExitCode::from(status as u8)
}
