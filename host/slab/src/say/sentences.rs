//! The sentences of `words/`, which the command and the page say alike: a line for each number that has one.

const LIMITS: &str = include_str!("../../../../words/limits.txt");
const REFUSALS: &str = include_str!("../../../../words/refusals.txt");
const RANGES: &str = include_str!("../../../../words/ranges.txt");

fn numbered(lines: &'static str, number: u32) -> Option<&'static str> {
    let number = number.to_string();
    let mut pairs = lines.lines().filter_map(|line| line.split_once(' '));
    pairs.find_map(|(given, sentence)| (given == number).then_some(sentence))
}

/// 01, "The verdict": each of the seven has one.
pub fn limit(number: u32) -> &'static str {
    numbered(LIMITS, number).expect("a limit of the method")
}

/// 01, "Refusal numbers, in the order tried".
pub fn refusal(number: u32) -> Option<&'static str> {
    numbered(REFUSALS, number)
}

/// Of a kind's values: 01, "The floor file".
pub fn range(kind: u16) -> Option<&'static str> {
    numbered(RANGES, kind.into())
}
