//! `slab make`: a text into a floor file.

use super::arguments::Arguments;
use super::{Command, Ended, Status};
use crate::input::Input;
use crate::judge::refusal;
use crate::output::{self, complain};
use crate::{say, text};
use std::ffi::OsString;

pub const COMMAND: Command = Command {
    name: "make",
    usage: "TEXT [-o FLOOR]",
    summary: "turn a text into a floor file",
    help: text::GUIDE,
    run,
};

fn run(words: &[OsString]) -> Ended {
    let arguments = Arguments::read(&COMMAND, words)?;
    output::no_terminal(arguments.output(), "a floor file", "-o")?;
    let input = Input::read(arguments.input)?;
    let file = text::floor(&input)?.bytes();
    output::write(arguments.output(), &file)?;
    // It is made all the same: `slab check` then says why, and a text is mended more easily than bytes.
    let refused = refusal(&file);
    if refused != 0 {
        let (name, why) = (&input.name, say::refusal::sentence(refused));
        complain(&format!(
            "the floor is made as {name} says, but it is {why}"
        ));
    }
    Ok(Status::DONE)
}
