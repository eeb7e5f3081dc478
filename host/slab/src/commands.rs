//! The commands: one file and one row each.

pub mod arguments;
pub mod change;
pub mod check;
pub mod clear;
pub mod help;
pub mod make;
pub mod schedule;
pub mod sheet;
pub mod text;

use std::ffi::OsString;

/// The exit status. 0 to 2 are what the library says of a floor.
#[derive(Clone, Copy, Debug, PartialEq, Eq)]
pub enum Status {
    Clear = 0,
    NotClear = 1,
    Refused = 2,
    /// The command line, a text or a file that cannot be used.
    Unusable = 3,
}

impl Status {
    /// Done as asked, by a command that judges nothing.
    pub const DONE: Status = Status::Clear;

    pub fn of(verdict: u32) -> Status {
        match verdict {
            0 => Status::Clear,
            _ => Status::NotClear,
        }
    }
}

/// A status, or what could not be used, in words.
pub type Ended = Result<Status, String>;

pub struct Command {
    pub name: &'static str,
    /// What follows the name on the command line.
    pub usage: &'static str,
    /// One line for the list of commands.
    pub summary: &'static str,
    /// What `slab help NAME` says below the usage.
    pub help: &'static str,
    pub run: fn(&[OsString]) -> Ended,
}

pub const COMMANDS: [&Command; 8] = [
    &make::COMMAND,
    &text::COMMAND,
    &check::COMMAND,
    &clear::COMMAND,
    &change::COMMAND,
    &sheet::COMMAND,
    &schedule::COMMAND,
    &help::COMMAND,
];

/// The command of this name, whichever way help is asked for.
fn named(name: &OsString) -> Result<&'static Command, String> {
    let name = if name == "--help" || name == "-h" {
        OsString::from("help")
    } else {
        name.clone()
    };
    let command = COMMANDS.into_iter().find(|command| name == command.name);
    command.ok_or_else(|| {
        let names = COMMANDS.map(|command| command.name).join(", ");
        format!(
            "no command {}: expected one of {names}",
            name.to_string_lossy()
        )
    })
}

/// Without a command there is help, and no status that a clear floor has.
pub fn run(words: &[OsString]) -> Ended {
    let Some((name, arguments)) = words.split_first() else {
        return Err(format!("expected a command\n\n{}", help::overview()));
    };
    let command = named(name)?;
    if arguments
        .iter()
        .any(|word| word == "--help" || word == "-h")
    {
        return help::print(command);
    }
    (command.run)(arguments)
}
