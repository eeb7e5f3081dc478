//! `slab help`: every command, or one in full.

use super::{named, Command, Ended, Status, COMMANDS};
use crate::output;
use std::ffi::OsString;

pub const COMMAND: Command = Command {
    name: "help",
    usage: "[COMMAND]",
    summary: "this page, or one command in full",
    help: "Lists the commands, or says all about one of them.\n",
    run,
};

const BEFORE: &str = "\
slab: floors for the Direct Design Method of ACI 318-14, judged by the proved library

";

const AFTER: &str = "
A floor file is bytes; write a text, and `slab make` turns it into one. For example:

  slab make garage.txt -o garage.floor
  slab check garage.floor

Exit status of `slab check`, `clear`, `change`, `sheet` and `schedule`: 0 clear, 1 not clear, 2
refused. Any command: 3 where the command line, a text or a file cannot be used; 0 otherwise, and 2
where `slab text` is given a file that is not laid out as a floor. `-` stands for standard input or
standard output.
";

/// Of a usage with the summary beside it; below a longer one the summary has a line of its own.
const WIDTH: usize = 24;
const BESIDE: usize = "  slab ".len() + WIDTH;

pub fn overview() -> String {
    let mut page = BEFORE.to_string();
    for Command {
        name,
        usage,
        summary,
        ..
    } in COMMANDS
    {
        let asked = format!("{name} {usage}");
        let apart = match asked.len() {
            0..WIDTH => String::new(),
            _ => format!("\n{:BESIDE$}", ""),
        };
        page += &format!("  slab {asked:<WIDTH$}{apart}{summary}\n");
    }
    page + AFTER
}

pub fn print(command: &Command) -> Ended {
    let Command {
        name, usage, help, ..
    } = command;
    output::print(format!("slab {name} {usage}\n\n{help}").as_bytes())?;
    Ok(Status::DONE)
}

fn run(words: &[OsString]) -> Ended {
    match words {
        [] => {
            output::print(overview().as_bytes())?;
            Ok(Status::DONE)
        }
        [name] => print(named(name)?),
        _ => Err("slab help takes one command".to_string()),
    }
}
