//! `slab change`: changes in words, and the verdict after each.

use super::arguments::Arguments;
use super::{Command, Ended, Status};
use crate::given::Given;
use crate::judge::Held;
use crate::text::change::{self, Change};
use crate::text::faults::{self, Fault};
use crate::{output, say};
use std::ffi::{OsStr, OsString};

pub const COMMAND: Command = Command {
    name: "change",
    usage: "FLOOR CHANGE .. [-o FLOOR]",
    summary: "make changes, and say what becomes of each",
    help: "\
Makes the changes one after another and says after each whether the floor is then clear, or which
limits it breaks. FLOOR is a floor file, or a text as `slab make` takes it. Each change is one word
of the command line, so it stands in quotes; it is written as in a text:

  'x span 2 6600'              the span of x bay 2
  'x line 0 beam 400 700'      width and depth; 0 0 for no beam
  'column 2 0 offset 250 0'    on y line 2 and x line 0: off along x, along y
  'dead 7200'   'live 5000'    one load; the floor keeps the other
  'loads 7200 5000'            both, dead and live

  slab change garage.floor 'x span 2 9900' 'x span 3 4800' -o moved.floor

At the first change that is refused it stops, with the reason, and nothing is written. -o names the
file for the floor that the changes make, clear or not; without it nothing is written. With `-o -`
the floor goes to standard output, and the words to standard error.

Exit status, by the floor after the last change: 0 clear, 1 not clear; 2 where the floor or a change
is refused; 3 where there is no floor, a change cannot be read, or the floor could not be written.
",
    run,
};

fn run(words: &[OsString]) -> Ended {
    let arguments = Arguments::read(&COMMAND, words)?;
    let output = arguments.output();
    if output.is_some() {
        output::no_terminal(output, "a floor file", "-o")?;
    }
    let changes = read(&arguments.changes)?;
    let given = Given::read(arguments.input)?;
    let tell = match output {
        Some(path) if path == "-" => output::remark,
        _ => output::print,
    };
    let mut held = match Held::open(&given.file) {
        Ok(held) => held,
        Err(number) => {
            let why = say::refusal::page(number, &given);
            tell(format!("{}: {why}", given.name).as_bytes())?;
            return Ok(Status::Refused);
        }
    };
    for change in changes {
        let (words, taken) = made(&mut held, change);
        tell(format!("{change}: {words}").as_bytes())?;
        if !taken {
            return Ok(Status::Refused);
        }
    }
    if output.is_some() {
        output::write(output, held.file())?;
    }
    Ok(Status::of(held.verdict()))
}

/// All of them, or every fault in words.
fn read(words: &[&OsStr]) -> Result<Vec<Change>, String> {
    if words.is_empty() {
        return Err(format!(
            "no change is given: expected slab change {}",
            COMMAND.usage
        ));
    }
    let (mut changes, mut faults) = (Vec::new(), Vec::new());
    for (line, words) in (1..).zip(words) {
        match change::read(words.as_encoded_bytes()) {
            Ok(change) => changes.push(change),
            Err(words) => faults.push(Fault { line, words }),
        }
    }
    match faults[..] {
        [] => Ok(changes),
        _ => Err(faults::list("change", &faults)),
    }
}

/// What becomes of it in words, and whether it is taken.
fn made(held: &mut Held, change: Change) -> (String, bool) {
    let floor = held.floor();
    let record = change.record(&floor);
    match held.change(record) {
        Ok(()) => (say::change::taken(held.verdict()), true),
        Err(number) => (say::change::refused(number, &floor, &record), false),
    }
}
