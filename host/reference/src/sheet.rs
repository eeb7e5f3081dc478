//! "The printing program"

use crate::refusals::SUCCESS;
use crate::span::NUMBERS;
use crate::table::numbers;
use crate::verdict::judge;

/// Numbers with single spaces between them, and a newline.
pub fn line(numbers: &[impl ToString]) -> String {
    let words: Vec<String> = numbers.iter().map(ToString::to_string).collect();
    words.join(" ") + "\n"
}

/// What the printing program writes for any bytes on standard input. It has room of its own for the
/// table, so 8 never arises.
pub fn sheet(floor: &[u8]) -> String {
    // "prints refusal number, a space, verdict"
    let (refused, verdict) = judge(floor);
    let mut text = line(&[refused, verdict]);
    // "at verdict 0 then one line per record, sixteen numbers, spaces between"
    if (refused, verdict) == (SUCCESS, 0) {
        for record in numbers(floor).chunks(NUMBERS) {
            text += &line(record);
        }
    }
    text
}
