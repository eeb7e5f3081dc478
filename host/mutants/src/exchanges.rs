//! Two neighbours in each other's place: arguments of a call, elements of an array, results of a match.

use crate::change::{Body, Change, Kind};
use crate::lexer::Class;

pub fn changes(body: &Body) -> Vec<Change> {
    let mut all = Vec::new();
    for at in body.places() {
        let call =
            body.text(at) == "(" && body.class(at - 1) == Some(Class::Name) && body.joins(at);
        let array = body.text(at) == "[" && !body.joins(at);
        if call || array {
            all.extend(neighbours(body, Kind::Arguments, &body.parts(at)));
        }
        if body.text(at) == "match" {
            let open = (at..).find(|&i| body.text(i) == "{").unwrap_or(at);
            all.extend(neighbours(body, Kind::Arms, &results(body, open)));
        }
    }
    all
}

fn neighbours(body: &Body, kind: Kind, parts: &[(usize, usize)]) -> Vec<Change> {
    parts
        .windows(2)
        .filter_map(|two| body.exchanged(kind, two[0], two[1]))
        .collect()
}

// The result of each arm of a match, as its first and last word.
fn results(body: &Body, open: usize) -> Vec<(usize, usize)> {
    let close = body.close(open);
    let mut all = Vec::new();
    let mut at = open + 1;
    while at < close {
        if body.text(at) == "(" {
            at = body.close(at);
        }
        if body.text(at) == "=>" {
            let last = result_end(body, at + 1, close);
            all.push((at + 1, last));
            at = last;
        }
        at += 1;
    }
    all
}

fn result_end(body: &Body, first: usize, close: usize) -> usize {
    let mut at = first;
    while at < close && body.text(at) != "," {
        match body.text(at) {
            "{" => return body.close(at),
            "(" | "[" => at = body.close(at),
            _ => {}
        }
        at += 1;
    }
    at - 1
}

#[cfg(test)]
mod tests {
    use super::*;
    use crate::change::of;

    #[test]
    fn neighbouring_arguments_that_differ() {
        let found = of("fn f() { g(a, b, b) }", &[], changes);
        assert_eq!(found, ["fn f() { g(b, a, b) }"]);
    }

    #[test]
    fn a_comma_within_an_argument_is_its_own() {
        let found = of("fn f() { g(h[i], k(c, c)) }", &[], changes);
        assert_eq!(found, ["fn f() { g(k(c, c), h[i]) }"]);
    }

    #[test]
    fn elements_of_an_array() {
        assert_eq!(
            of("const A: [u64; 2] = [3, 4];", &[], changes),
            ["const A: [u64; 2] = [4, 3];"]
        );
    }

    #[test]
    fn results_of_a_match() {
        let found = of(
            "fn f() { match a { 1 => match b { _ => 5, }, _ => 0, } }",
            &[],
            changes,
        );
        assert_eq!(
            found,
            ["fn f() { match a { 1 => 0, _ => match b { _ => 5, }, } }"]
        );
    }
}
