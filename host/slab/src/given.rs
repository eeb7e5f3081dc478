//! The floor that a command is given: a floor file, or a text as `slab make` takes it.

use crate::input::Input;
use crate::text;
use std::ffi::OsStr;

pub struct Given {
    /// What to call it in a sentence.
    pub name: String,
    /// The bytes to judge.
    pub file: Vec<u8>,
    /// How many there are. Of more than any floor has, only some are kept.
    pub length: u64,
}

impl Given {
    pub fn read(path: &OsStr) -> Result<Given, String> {
        let input = Input::read(path)?;
        let (file, length) = if input.is_text() {
            let made = text::floor(&input)?.bytes();
            let length = made.len() as u64;
            (made, length)
        } else {
            (input.floor().to_vec(), input.length())
        };
        let name = input.name;
        Ok(Given { name, file, length })
    }
}
