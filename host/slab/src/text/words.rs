//! One line of a text, word by word.

use std::fmt::Display;
use std::str::FromStr;

pub struct Words {
    words: Vec<String>,
    at: usize,
}

impl Words {
    /// Without its comment. Capitals are taken as small letters, and a comma or colon after a word as nothing.
    pub fn of(line: &[u8]) -> Result<Words, String> {
        let code = line.split(|&byte| byte == b'#').next().unwrap_or(line);
        let of_text = |byte: &u8| *byte >= b' ' || byte.is_ascii_whitespace();
        match std::str::from_utf8(code) {
            Ok(code) if code.as_bytes().iter().all(of_text) => Ok(Words {
                words: code.split_whitespace().map(plain).collect(),
                at: 0,
            }),
            _ => Err("expected words and numbers, found bytes that are no text".to_string()),
        }
    }

    fn next(&self) -> Option<&str> {
        self.words.get(self.at).map(String::as_str)
    }

    pub fn are_over(&self) -> bool {
        self.next().is_none()
    }

    /// Passes over these words, if they come next.
    pub fn pass(&mut self, words: &str) -> bool {
        let count = words.split(' ').count();
        let next = self.words[self.at..].iter().take(count);
        let pass = next.eq(words.split(' '));
        if pass {
            self.at += count;
        }
        pass
    }

    /// Which of these words comes next. It is passed over.
    pub fn one_of(&mut self, choices: &[&str]) -> Option<usize> {
        choices.iter().position(|choice| self.pass(choice))
    }

    pub fn next_is_number(&self) -> bool {
        self.next().is_some_and(is_number)
    }

    pub fn number(&mut self, what: &str) -> Result<u32, String> {
        self.number_up_to(u32::MAX, what)
    }

    /// One that a record's index has room for.
    pub fn index(&mut self, what: &str) -> Result<u16, String> {
        self.number_up_to(u16::MAX, what)
    }

    /// `most` is the largest of its type.
    fn number_up_to<N: FromStr + Display>(&mut self, most: N, what: &str) -> Result<N, String> {
        let number = match self.next() {
            Some(word) if is_number(word) => word
                .parse()
                .map_err(|_| self.instead_of(&format!("{what}, at most {most}"))),
            Some(_) => Err(self.instead_of(&format!("{what}, digits alone"))),
            None => Err(self.instead_of(what)),
        }?;
        self.at += 1;
        Ok(number)
    }

    /// All that are left.
    pub fn numbers(&mut self, what: &str) -> Result<Vec<u32>, String> {
        let mut numbers = Vec::new();
        while !self.are_over() {
            numbers.push(self.number(what)?);
        }
        Ok(numbers)
    }

    pub fn end(&self) -> Result<(), String> {
        if self.are_over() {
            return Ok(());
        }
        Err(self.instead_of("nothing more on the line"))
    }

    /// "expected this, found the next word"
    pub fn instead_of(&self, expected: &str) -> String {
        let shortened: String = self.next().unwrap_or("").chars().take(40).collect();
        match self.next() {
            Some(_) => format!("expected {expected}, found `{shortened}`"),
            None => format!("expected {expected}, found the end of the line"),
        }
    }
}

fn plain(word: &str) -> String {
    let bare = word.strip_suffix([',', ':']).unwrap_or(word);
    bare.to_ascii_lowercase()
}

fn is_number(word: &str) -> bool {
    !word.is_empty() && word.bytes().all(|byte| byte.is_ascii_digit())
}
