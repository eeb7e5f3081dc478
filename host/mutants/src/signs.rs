//! Another comparison, another operator, a negation dropped or put before a condition.

use crate::change::{Body, Change, Kind};

const COMPARISONS: [(&str, &str); 6] = [
    ("<", "<="),
    ("<=", "<"),
    (">", ">="),
    (">=", ">"),
    ("==", "!="),
    ("!=", "=="),
];

const OPERATORS: [(&str, &str); 9] = [
    ("+", "-"),
    ("-", "+"),
    ("*", "+"),
    ("/", "*"),
    ("%", "/"),
    ("&&", "||"),
    ("||", "&&"),
    ("+=", "-="),
    ("-=", "+="),
];

pub fn changes(body: &Body) -> Vec<Change> {
    let mut all = Vec::new();
    for at in body.places() {
        let text = body.text(at);
        let other = |table: &[(&str, &'static str)]| {
            table
                .iter()
                .find(|(old, _)| *old == text)
                .map(|(_, new)| *new)
        };
        if let Some(new) = other(&COMPARISONS) {
            all.push(body.replaced(Kind::Comparison, at, new));
        }
        if let Some(new) = other(&OPERATORS).filter(|_| body.joins(at)) {
            all.push(body.replaced(Kind::Operator, at, new));
        }
        if text == "!" {
            all.push(body.replaced(Kind::Negation, at, ""));
        }
        if text == "if" && plain(body, at + 1) {
            all.push(body.replaced(Kind::Negation, at, "if !"));
        }
    }
    all
}

// A name or a call: a comparison has its own change, and so has a negation.
fn plain(body: &Body, first: usize) -> bool {
    let mut at = first;
    while body.text(at) != "{" {
        match body.text(at) {
            "(" | "[" => at = body.close(at),
            "!" | "<" | "<=" | ">" | ">=" | "==" | "!=" | "&&" | "||" => return false,
            _ => {}
        }
        at += 1;
    }
    true
}

#[cfg(test)]
mod tests {
    use super::*;
    use crate::change::of;

    #[test]
    fn a_comparison_and_an_operator() {
        let found = of("fn f() { a <= b + 1 }", &[], changes);
        assert_eq!(found, ["fn f() { a < b + 1 }", "fn f() { a <= b - 1 }"]);
    }

    #[test]
    fn a_sign_that_joins_nothing_stays() {
        assert!(of("fn f() { return *a; }", &[], changes).is_empty());
        assert!(of("fn f() { g(&a) }", &[], changes).is_empty());
    }

    #[test]
    fn a_negation_is_dropped() {
        assert_eq!(
            of("fn f() { if !g(a) { b } }", &[], changes),
            ["fn f() { if g(a) { b } }"]
        );
    }

    #[test]
    fn a_plain_condition_is_negated() {
        assert_eq!(
            of("fn f() { if g(a == b) { b } }", &[], changes)[0],
            "fn f() { if ! g(a == b) { b } }"
        );
    }
}
