//! `slab clear`: yes or no, in one line.

use super::arguments::Arguments;
use super::{Command, Ended, Status};
use crate::given::Given;
use crate::judge::{clear, Clear};
use crate::{output, say};
use std::ffi::OsString;

pub const COMMAND: Command = Command {
    name: "clear",
    usage: "FLOOR",
    summary: "say yes or no: whether a floor is clear",
    help: "\
Says in one line whether the floor is clear: yes, or no, and of a floor that is refused the reason.
Which limits are broken is for `slab check` to say: the answer here stops at the first. FLOOR is a
floor file, or a text as `slab make` takes it.

  slab clear garage.floor

Exit status: 0 clear, 1 not clear, 2 refused, 3 where there is no floor to ask about.
",
    run,
};

fn run(words: &[OsString]) -> Ended {
    let given = Given::read(Arguments::read(&COMMAND, words)?.input)?;
    let answer = clear(&given.file);
    let line = format!("{}: {}", given.name, say::clear::line(&answer));
    output::print(line.as_bytes())?;
    Ok(match answer {
        Clear::Yes => Status::Clear,
        Clear::No => Status::NotClear,
        Clear::Refused(_) => Status::Refused,
    })
}
