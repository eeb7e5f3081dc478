//! `slab text`: a floor file into a text.

use super::arguments::Arguments;
use super::{Command, Ended, Status};
use crate::input::Input;
use crate::judge::refusal;
use crate::output::{self, complain};
use crate::{say, text};
use floor::Floor;
use std::ffi::OsString;

pub const COMMAND: Command = Command {
    name: "text",
    usage: "FLOOR [-o TEXT]",
    summary: "turn a floor file into a text",
    help: "\
Writes the floor as the text that `slab make` turns into exactly these bytes, values out of range
and all. Of a file that is not laid out as a floor it says the refusal, and ends with status 2.

  slab text garage.floor -o garage.txt
",
    run,
};

fn run(words: &[OsString]) -> Ended {
    let arguments = Arguments::read(&COMMAND, words)?;
    let input = Input::read(arguments.input)?;
    if let Some(floor) = Floor::of(input.floor()) {
        output::write(arguments.output(), text::write::text(&floor).as_bytes())?;
        return Ok(Status::DONE);
    }
    let why = say::refusal::sentence(refusal(input.floor()));
    complain(&format!("{}: {why}", input.name));
    Ok(Status::Refused)
}
