//! What one line of a text says.

use super::forms::{Numbers, FORMS};
use super::lines::Lines;
use super::sides;
use super::words::Words;

pub enum Said {
    Nothing,
    /// Which of the forms, with its numbers if they could be read.
    Once(usize, Result<Vec<u32>, String>),
    /// Width and depth.
    Beam(Lines, (u32, u32)),
    /// Of the column on y line i and x line j: along x, along y.
    Offset([usize; 2], (u32, u32)),
}

/// The fault's words where the line cannot be read.
pub fn said(line: &[u8]) -> Result<Said, String> {
    let mut words = Words::of(line)?;
    if words.are_over() {
        return Ok(Said::Nothing);
    }
    if let Some(form) = FORMS.iter().position(|form| words.pass(form.key)) {
        let numbers = numbers(&FORMS[form].numbers, &mut words);
        return Ok(Said::Once(form, with_example(numbers, FORMS[form].example)));
    }
    if let Some(lines) = Lines::read(&mut words) {
        return with_example(beam(lines, &mut words), "x line 0 beam 400 700");
    }
    if words.pass("column") {
        return with_example(offset(&mut words), "column 2 0 offset 250 0");
    }
    let keys = FORMS.map(|form| form.key).join(", ");
    Err(words.instead_of(&format!(
        "a line that begins with {keys}, x line, y line, x lines, y lines, outer lines, \
         inner lines, all lines or column"
    )))
}

pub fn with_example<T>(read: Result<T, String>, example: &str) -> Result<T, String> {
    read.map_err(|fault| format!("{fault}; for example `{example}`"))
}

fn numbers(form: &Numbers, words: &mut Words) -> Result<Vec<u32>, String> {
    let numbers = match form {
        Numbers::Each(whats) => whats.iter().map(|what| words.number(what)).collect(),
        Numbers::Many(what) => words.numbers(what),
        Numbers::Sides => sides::read(words).map(|sum| vec![sum]),
    }?;
    words.end()?;
    Ok(numbers)
}

fn beam(lines: Result<Lines, String>, words: &mut Words) -> Result<Said, String> {
    Ok(Said::Beam(lines?, beam_sizes(words)?))
}

fn offset(words: &mut Words) -> Result<Said, String> {
    let i = words.number("the column's y line")? as usize;
    let j = words.number("the column's x line")? as usize;
    Ok(Said::Offset([i, j], offset_sizes(words)?))
}

/// The rest of a line from the word `beam` on.
pub fn beam_sizes(words: &mut Words) -> Result<(u32, u32), String> {
    let whats = ["the beam's width in mm", "the beam's depth in mm"];
    pair("beam", whats, words)
}

/// The rest of a line from the word `offset` on.
pub fn offset_sizes(words: &mut Words) -> Result<(u32, u32), String> {
    let whats = ["the offset along x in mm", "the offset along y in mm"];
    pair("offset", whats, words)
}

/// The key, two numbers, and the end of the line.
fn pair(key: &str, whats: [&str; 2], words: &mut Words) -> Result<(u32, u32), String> {
    if !words.pass(key) {
        return Err(words.instead_of(&format!("`{key}`")));
    }
    let pair = (words.number(whats[0])?, words.number(whats[1])?);
    words.end()?;
    Ok(pair)
}
