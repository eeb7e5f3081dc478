//! A statement left out: an early return, or an assignment. A proof names every call, so that leaving out one of these would show nothing.

use crate::change::{Body, Change, Kind};

pub fn changes(body: &Body) -> Vec<Change> {
    let starts = body
        .places()
        .filter(|&at| matches!(body.text(at - 1), "{" | "}" | ";"));
    let ends = starts.filter_map(|at| Some((at, ended(body, at)?)));
    ends.map(|(first, last)| body.rewritten(Kind::Statement, first, last, String::new()))
        .collect()
}

// The semicolon of a return or an assignment that begins here.
fn ended(body: &Body, first: usize) -> Option<usize> {
    let mut fits = match body.text(first) {
        "let" => return None,
        word => word == "return",
    };
    let mut at = first;
    while at < body.item.end {
        match body.text(at) {
            "(" | "[" => at = body.close(at),
            "=" | "+=" | "-=" => fits = true,
            "{" | "}" | "," | "=>" => return None,
            ";" => return fits.then_some(at),
            _ => {}
        }
        at += 1;
    }
    None
}

#[cfg(test)]
mod tests {
    use super::*;
    use crate::change::of;

    #[test]
    fn a_return_and_an_assignment() {
        let found = of("fn f() { if a { return 8; } b[i] += 1; 0 }", &[], changes);
        assert_eq!(
            found,
            [
                "fn f() { if a {  } b[i] += 1; 0 }",
                "fn f() { if a { return 8; }  0 }"
            ]
        );
    }

    #[test]
    fn a_call_stays() {
        assert!(of("fn f() { g(b); 0 }", &[], changes).is_empty());
    }

    #[test]
    fn what_binds_a_name_stays() {
        assert!(of("fn f() { let a = [0u8; 3]; a }", &[], changes).is_empty());
    }

    #[test]
    fn the_fields_of_a_value_are_no_statements() {
        assert!(of("fn f() { Spans { from: 0, to: n } }", &[], changes).is_empty());
    }
}
