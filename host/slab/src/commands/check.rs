//! `slab check`: the refusal, or the verdict with its places, in words, and each panel's least thickness. It shows no moment.

use super::arguments::Arguments;
use super::{Command, Ended, Status};
use crate::given::Given;
use crate::judge::judge;
use crate::{output, say};
use std::ffi::OsString;

pub const COMMAND: Command = Command {
    name: "check",
    usage: "[--all] FLOOR",
    summary: "say whether a floor is clear, and where each limit is broken",
    help: "\
Says why the floor is refused, or every limit of the method that it breaks, all together, and each
panel's least thickness beside the slab's. FLOOR is a floor file, or a text as `slab make` takes it.

  slab check garage.floor

Below each broken limit stand the places that break it, with the floor's numbers there; bays, spans
and lines count from 0, as in a text. Up to four places of a limit have a line each. More of them
are folded: `the 6 panels of x bays 0 to 2, y bays 1 and 4` is every one of those panels, and its
numbers are the least and the greatest among them. With --all each place has its own line.

Exit status: 0 clear, 1 not clear, 2 refused, 3 where there is no floor to check.
",
    run,
};

fn run(words: &[OsString]) -> Ended {
    let arguments = Arguments::read(&COMMAND, words)?;
    let given = Given::read(arguments.input)?;
    let (words, status) = match judge(&given.file) {
        Err(number) => (say::refusal::page(number, &given), Status::Refused),
        Ok(accepted) => {
            let page = say::verdict::page(&accepted, arguments.has("--all"));
            (page, Status::of(accepted.verdict))
        }
    };
    output::print(format!("{}: {words}", given.name).as_bytes())?;
    Ok(status)
}
