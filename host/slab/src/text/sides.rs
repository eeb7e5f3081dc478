//! "Sides = west + 4·east + 16·south + 64·north, each 0 columns, 1 unrestrained, 2 fully restrained"

use super::words::Words;

pub const SIDES: [&str; 4] = ["west", "east", "south", "north"];
pub const CODES: [&str; 3] = ["columns", "unrestrained", "restrained"];

/// The four sides in any order, one word for all of them, or the sum itself.
pub(super) fn read(words: &mut Words) -> Result<u32, String> {
    if words.next_is_number() {
        return words.number("the sum of the sides");
    }
    if let Some(code) = words.one_of(&CODES) {
        return Ok((0..4).map(|side| (code as u32) << (2 * side)).sum());
    }
    let mut codes = [None; 4];
    while let Some(side) = words.one_of(&SIDES) {
        let code = words.one_of(&CODES);
        let code = code.ok_or_else(|| words.instead_of("columns, unrestrained or restrained"))?;
        if codes[side].replace(code as u32).is_some() {
            return Err(format!("expected the {} side once", SIDES[side]));
        }
    }
    let missing = (0..4).find(|&side| codes[side].is_none());
    match missing {
        Some(side) => Err(words.instead_of(&format!("the {} side", SIDES[side]))),
        None => Ok((0..4)
            .map(|side| codes[side].unwrap_or(0) << (2 * side))
            .sum()),
    }
}

/// In words where each side has a code that has a word, else the sum itself.
pub fn written(sum: u32) -> String {
    let word = |side: usize| {
        let code = CODES.get((sum >> (2 * side) & 3) as usize)?;
        Some(format!("{} {code}", SIDES[side]))
    };
    let words: Option<Vec<String>> = (0..4).map(word).collect();
    match words {
        Some(words) if sum < 256 => words.join(", "),
        _ => sum.to_string(),
    }
}
