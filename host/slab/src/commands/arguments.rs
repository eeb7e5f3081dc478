//! The words after a command's name: one input, changes where the usage has them, and the options that it shows.

use super::Command;
use std::ffi::{OsStr, OsString};

pub struct Arguments<'a> {
    pub input: &'a OsStr,
    /// What follows the input.
    pub changes: Vec<&'a OsStr>,
    /// Each option that is given, with the word after it where it asks for one.
    given: Vec<(&'static str, Option<&'a OsStr>)>,
}

/// Every option, and where it asks for a word the fault of having none.
const OPTIONS: [(&str, Option<&str>); 6] = [
    ("--all", None),
    ("--html", None),
    ("-o", Some("no file is named after -o")),
    ("--out", Some("no file is named after --out")),
    ("--name", Some("no name stands after --name")),
    ("--date", Some("no date stands after --date")),
];

fn unusable(command: &Command, words: &str) -> String {
    let Command { name, usage, .. } = command;
    format!("{words}: expected slab {name} {usage}")
}

impl<'a> Arguments<'a> {
    /// Each option at most once.
    pub fn read(command: &Command, words: &'a [OsString]) -> Result<Arguments<'a>, String> {
        let (mut plain, mut given) = (Vec::new(), Vec::new());
        let mut words = words.iter().map(OsString::as_os_str);
        while let Some(word) = words.next() {
            let shown = |(option, _): &&(&str, _)| word == *option && shows(command, option);
            let fits = if let Some((option, asks)) = OPTIONS.iter().find(shown) {
                let next = |fault: &str| words.next().ok_or_else(|| unusable(command, fault));
                let once = given.iter().all(|(other, _)| other != option);
                given.push((*option, asks.map(next).transpose()?));
                once
            } else {
                plain.push(word);
                !is_option(word) && (plain.len() == 1 || command.usage.contains("CHANGE"))
            };
            if !fits {
                let words = format!("{} has no place here", word.to_string_lossy());
                return Err(unusable(command, &words));
            }
        }
        if plain.is_empty() {
            return Err(unusable(command, "no file is named"));
        }
        let changes = plain.split_off(1);
        let input = plain[0];
        Ok(Arguments {
            input,
            changes,
            given,
        })
    }

    pub fn has(&self, option: &str) -> bool {
        self.given.iter().any(|(given, _)| *given == option)
    }

    /// The word after the option.
    pub fn after(&self, option: &str) -> Option<&'a OsStr> {
        let mut given = self.given.iter();
        given.find_map(|(other, word)| word.filter(|_| *other == option))
    }

    /// What `-o` names.
    pub fn output(&self) -> Option<&'a OsStr> {
        self.after("-o")
    }
}

/// Whether the option is a word of the usage.
fn shows(command: &Command, option: &str) -> bool {
    let mut words = command.usage.split([' ', '[', ']']);
    words.any(|word| word == option)
}

/// `-` stands for standard input.
fn is_option(word: &OsStr) -> bool {
    word != "-" && word.as_encoded_bytes().starts_with(b"-")
}
