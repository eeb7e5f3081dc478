//! What is wrong with a text or with changes in words, and where.

#[derive(Clone, Debug, PartialEq, Eq)]
pub struct Fault {
    /// Of the text, or which of the changes: counted from 1.
    pub line: usize,
    /// What was expected there.
    pub words: String,
}

/// More than these say nothing new.
const MOST_SAID: usize = 20;

/// A line for each fault, by its number, which stands after `counted`.
pub fn list(counted: &str, faults: &[Fault]) -> String {
    let said = faults.iter().take(MOST_SAID);
    let mut lines: Vec<String> = said
        .map(|Fault { line, words }| format!("{counted} {line}: {words}"))
        .collect();
    if faults.len() > MOST_SAID {
        lines.push(format!("and {} more", faults.len() - MOST_SAID));
    }
    lines.join("\n      ")
}
