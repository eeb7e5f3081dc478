//! The words of a Rattle file, without its comments.

#[derive(Clone, Copy, Debug, PartialEq, Eq)]
pub enum Class {
    Name,
    Number,
    Text,
    Sign,
}

/// A word of the file, from one byte to another.
#[derive(Clone, Copy, Debug, PartialEq, Eq)]
pub struct Token {
    pub class: Class,
    pub from: usize,
    pub to: usize,
}

impl Token {
    pub fn text<'a>(&self, source: &'a str) -> &'a str {
        &source[self.from..self.to]
    }
}

// A longer sign stands before the signs that it begins with.
const SIGNS: [&str; 16] = [
    "..=", "..", "::", "->", "=>", "<=", ">=", "==", "!=", "&&", "||", "+=", "-=", "*=", "/=", "%=",
];

pub fn tokens(source: &str) -> Vec<Token> {
    let mut found = Vec::new();
    let mut at = 0;
    while let Some(first) = source[at..].chars().next() {
        let rest = &source[at..];
        if first.is_whitespace() {
            at += first.len_utf8();
            continue;
        }
        if rest.starts_with("//") {
            at += rest.find('\n').unwrap_or(rest.len());
            continue;
        }
        let (class, length) = word(rest, first);
        found.push(Token {
            class,
            from: at,
            to: at + length,
        });
        at += length;
    }
    found
}

fn word(rest: &str, first: char) -> (Class, usize) {
    if first.is_ascii_alphabetic() || first == '_' {
        return (Class::Name, name_length(rest));
    }
    if first.is_ascii_digit() {
        return (Class::Number, name_length(rest));
    }
    if first == '"' {
        return (
            Class::Text,
            rest[1..].find('"').map_or(rest.len(), |end| end + 2),
        );
    }
    let sign = SIGNS.iter().find(|sign| rest.starts_with(**sign));
    (
        Class::Sign,
        sign.map_or(first.len_utf8(), |sign| sign.len()),
    )
}

fn name_length(rest: &str) -> usize {
    rest.find(|c: char| !(c.is_ascii_alphanumeric() || c == '_'))
        .unwrap_or(rest.len())
}

/// Of the bracket at `open`, the one that closes it.
pub fn closing(source: &str, tokens: &[Token], open: usize) -> usize {
    let mut depth = 0;
    for (at, token) in tokens.iter().enumerate().skip(open) {
        match token.text(source) {
            "(" | "[" | "{" => depth += 1,
            ")" | "]" | "}" => depth -= 1,
            _ => {}
        }
        if depth == 0 {
            return at;
        }
    }
    tokens.len().saturating_sub(1)
}

#[cfg(test)]
mod tests {
    use super::*;

    fn words(source: &str) -> Vec<&str> {
        tokens(source)
            .iter()
            .map(|token| token.text(source))
            .collect()
    }

    #[test]
    fn a_range_is_three_words() {
        assert_eq!(words("5..=9 => 0u8,"), ["5", "..=", "9", "=>", "0u8", ","]);
    }

    #[test]
    fn comments_are_left_out() {
        assert_eq!(words("a // b < c\n< d"), ["a", "<", "d"]);
    }

    #[test]
    fn a_contract_does_not_trouble_it() {
        assert_eq!(words("⌜ r ≡ 1 ⌝"), ["⌜", "r", "≡", "1", "⌝"]);
    }

    #[test]
    fn brackets_close_at_their_own() {
        let source = "f(a[(1)], b) + g()";
        let found = tokens(source);
        assert_eq!(closing(source, &found, 1), 10);
    }
}
