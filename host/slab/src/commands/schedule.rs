//! `slab schedule`: the bars of a clear floor, for a person to read or as the file that the yard cuts from.

use super::arguments::Arguments;
use super::{Command, Ended, Status};
use crate::given::Given;
use crate::judge::{Held, Schedule, RECORD_BYTES};
use crate::output::{self, complain};
use crate::say;
use crate::sheet::schedule::text;
use crate::sheet::unbarred;
use std::ffi::{OsStr, OsString};

pub const COMMAND: Command = Command {
    name: "schedule",
    usage: "FLOOR [--out FILE]",
    summary: "list the bars of a clear floor",
    help: "\
Lists the bars of a clear floor, frame by frame: of each section of each span, for the slab of the
column strip and for the middle strip, the width, the moment, the area of steel that it needs and
the bars, as `10 mm @ 150`: 10, 12 or 16 mm, and the spacing from bar to bar in mm. The areas are for
bars along x next to the face of the slab and bars along y inside them; a note has their depths.
FLOOR is a floor file, or a text as `slab make` takes it.

  slab schedule garage.floor
  slab schedule garage.floor --out garage.bars

With --out nothing is listed: FILE gets the schedule for the yard, a record of 32 bytes for each
strip, and you are told how many were written. A record is eight numbers of four bytes, the lowest
first: record number in the table, section (0 low end, 1 between, 2 high end), strip (0 column, 1
middle), width, moment in N·cm, area, bar diameter, spacing. With `--out -` they go to standard
output.

A floor that is not clear has no schedule (refused 16), nor has one with a strip that cannot be
barred (refused 17), and the first such strips are named. The refusal is said on standard error, and
no file is written.

Exit status: 0 done, 1 not clear, 2 refused otherwise, 3 where there is no floor or the file could
not be written.
",
    run,
};

fn run(words: &[OsString]) -> Ended {
    let arguments = Arguments::read(&COMMAND, words)?;
    let file = arguments.after("--out");
    if file.is_some() {
        output::no_terminal(file, "a schedule file", "--out")?;
    }
    let given = Given::read(arguments.input)?;
    let (held, schedule) = match asked(&given.file) {
        Ok(found) => found,
        Err(number) => {
            let why = why(number, &given);
            complain(&format!("{}: {}", given.name, why.trim_end()));
            return Ok(refused(number));
        }
    };
    match file {
        None => output::print(text(&given.name, &held, &schedule).as_bytes())?,
        Some(file) => write(file, &given.name, &schedule)?,
    }
    Ok(Status::DONE)
}

fn asked(file: &[u8]) -> Result<(Held, Schedule), u32> {
    Ok((Held::open(file)?, Schedule::of(file)?))
}

/// With what to look at.
fn why(number: u32, given: &Given) -> String {
    let mut page = say::refusal::page(number, given);
    let look = match (number, Held::open(&given.file)) {
        (16, _) => vec!["`slab check` says what is broken".to_string()],
        (17, Ok(held)) => unbarred::lines(&held),
        _ => Vec::new(),
    };
    for line in look {
        page += &format!("  {line}\n");
    }
    page
}

/// "16, verdict not 0" (02, Five)
fn refused(number: u32) -> Status {
    match number {
        16 => Status::NotClear,
        _ => Status::Refused,
    }
}

fn write(file: &OsStr, name: &str, schedule: &Schedule) -> Result<(), String> {
    output::write(Some(file), schedule.bytes())?;
    let count = schedule.records();
    if file == "-" {
        let told = format!("{name}: {count} records of {RECORD_BYTES} bytes written\n");
        return output::remark(told.as_bytes());
    }
    let file = file.to_string_lossy();
    let told = format!("{name}: {count} records of {RECORD_BYTES} bytes written to {file}\n");
    output::print(told.as_bytes())
}
