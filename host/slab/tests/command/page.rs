//! What `check` prints, taken apart.

use crate::run::slab_on;

/// Each limit that is said to be broken, with the lines of its places, in their order.
pub fn limits(words: &str) -> Vec<(u32, Vec<String>)> {
    let mut limits: Vec<(u32, Vec<String>)> = Vec::new();
    let lines = words.lines();
    let lines = lines.skip_while(|line| !line.starts_with("not clear, "));
    for line in lines.skip(1).take_while(|line| line.starts_with("  ")) {
        match line.strip_prefix("        ") {
            Some(place) => limits.last_mut().unwrap().1.push(place.to_string()),
            None => limits.push((number(line), Vec::new())),
        }
    }
    limits
}

fn number(line: &str) -> u32 {
    line.split_whitespace().next().unwrap().parse().unwrap()
}

/// Folded or, with `--all`, one by one.
pub fn broken(options: &[&str], file: &[u8]) -> Vec<(u32, Vec<String>)> {
    let words = [&["check"], options, &["-"]].concat();
    let ran = slab_on(&words, file);
    assert_eq!((ran.status, &ran.stderr[..]), (1, ""), "{}", ran.words());
    limits(ran.words())
}

/// These limits, and below each these lines.
pub fn expect_broken(options: &[&str], file: &[u8], right: &[(u32, &[&str])]) {
    let said = broken(options, file);
    let said: Vec<(u32, Vec<&str>)> = said
        .iter()
        .map(|(limit, lines)| (*limit, lines.iter().map(String::as_str).collect()))
        .collect();
    let right: Vec<(u32, Vec<&str>)> = right
        .iter()
        .map(|(limit, lines)| (*limit, lines.to_vec()))
        .collect();
    assert_eq!(said, right);
}
