//! `slab sheet`: the fixer's sheet, as text or as a page.

use super::arguments::Arguments;
use super::{Command, Ended, Status};
use crate::given::Given;
use crate::judge::Held;
use crate::output::{self, complain};
use crate::say;
use crate::sheet::{date, html, text, Sheet};
use std::ffi::{OsStr, OsString};
use std::path::Path;

pub const COMMAND: Command = Command {
    name: "sheet",
    usage: "[--html] [--name NAME] [--date DATE] FLOOR [-o FILE]",
    summary: "write the sheet to bar a floor from",
    help: "\
Writes the moments of a clear floor, frame by frame: of each span the three sections, of each
support the larger moment of its two faces. Each stands as total, column strip, middle strip, beam
and slab of the column strip, in kN·m and never rounded down, with the side of the slab, top or
bottom, where the steel lies. Beside the sections stand the bars of their two strips, diameter @
spacing in mm, and a note says at what depth the bars along x and along y lie; where some strip
cannot be barred the sheet says so, and has none (`slab schedule` names the strip). The text has the
exact number in N·cm beside each moment; with --html the sheet is a page to print. FLOOR is a floor
file, or a text as `slab make` takes it.

  slab sheet garage.floor
  slab sheet --html --name 'Garage, level 2' garage.floor -o garage.html

The sheet of a floor that is not clear says what is broken, and has no figure. Of a refused floor
there is none: the refusal is said on standard error. Without --name the sheet is named as the file
is, without folder and ending; without --date it has today's date (UTC).

Exit status: 0 clear, 1 not clear, 2 refused, 3 where there is no floor or the sheet could not be
written.
",
    run,
};

fn run(words: &[OsString]) -> Ended {
    let arguments = Arguments::read(&COMMAND, words)?;
    let given = Given::read(arguments.input)?;
    let held = match Held::open(&given.file) {
        Ok(held) => held,
        Err(number) => {
            let why = say::refusal::page(number, &given);
            complain(&format!("{}: {}", given.name, why.trim_end()));
            return Ok(Status::Refused);
        }
    };
    let name = match arguments.after("--name") {
        Some(name) => one_line(name),
        None => name_of(arguments.input, &given),
    };
    let date = match arguments.after("--date") {
        Some(date) => one_line(date),
        None => date::today()?,
    };
    let sheet = Sheet::of(&held, name, date);
    let written = if arguments.has("--html") {
        html::page(&sheet)
    } else {
        text::text(&sheet)
    };
    output::write(arguments.output(), written.as_bytes())?;
    Ok(Status::of(held.verdict()))
}

/// The file's, without folder and ending.
fn name_of(path: &OsStr, given: &Given) -> String {
    match Path::new(path).file_stem() {
        Some(stem) if path != "-" => one_line(stem),
        _ => given.name.clone(),
    }
}

/// No name may look like a line of the sheet.
fn one_line(words: &OsStr) -> String {
    let words = words.to_string_lossy();
    words.replace(|letter: char| letter.is_control(), " ")
}
