//! The other direction or end, another variant of the same enum, true for false.

use crate::change::{Body, Change, Kind};

// Fields of which one is along x and one along y, or one at the low end and one at the high.
const FIELDS: [(&str, &str); 3] = [("x", "y"), ("cx", "cy"), ("low", "high")];

// The numbers of the two rows of an array that has one for each direction.
const ROWS: (&str, &str) = ("X", "Y");

// The direction along, and the one across where a function names it.
const WAYS: (&str, &str) = ("d", "over");

pub fn changes(body: &Body) -> Vec<Change> {
    let mut all = Vec::new();
    let mut across = false;
    for at in body.places() {
        let (before, text, after) = (body.text(at - 1), body.text(at), body.text(at + 1));
        across =
            across || (before == ";" && body.places().any(|i| i < at && body.text(i) == WAYS.1));
        let new = match text {
            "true" => Some((Kind::Truth, "false")),
            "false" => Some((Kind::Truth, "true")),
            _ if before == "." && after != "(" => FIELDS
                .iter()
                .find_map(|pair| other(*pair, text))
                .map(direction),
            _ if before == "[" && after == "]" => other(ROWS, text).map(direction),
            _ if across && before != "." && before != "let" => other(WAYS, text).map(direction),
            _ => None,
        };
        if let Some((kind, new)) = new {
            all.push(body.replaced(kind, at, new));
        }
        if before == "::" && !matches!(after, "=>" | "|" | "(") {
            all.extend(variant(body, at));
        }
    }
    all
}

fn direction(new: &'static str) -> (Kind, &'static str) {
    (Kind::Direction, new)
}

fn other(pair: (&'static str, &'static str), text: &str) -> Option<&'static str> {
    match text {
        _ if text == pair.0 => Some(pair.1),
        _ if text == pair.1 => Some(pair.0),
        _ => None,
    }
}

// The next variant, and after the last the first. A pattern keeps its own: its result is exchanged with its neighbour's.
fn variant(body: &Body, at: usize) -> Option<Change> {
    let declared = body
        .declared
        .enums
        .iter()
        .find(|e| e.name == body.text(at - 2))?;
    let place = declared.variants.iter().position(|v| v == body.text(at))?;
    let next = &declared.variants[(place + 1) % declared.variants.len()];
    let kind = if declared.variants.len() == 2 {
        Kind::Direction
    } else {
        Kind::Variant
    };
    (next != body.text(at)).then(|| body.replaced(kind, at, next))
}

#[cfg(test)]
mod tests {
    use super::*;
    use crate::change::of;

    const PLAN: [(&str, &str); 1] = [(
        "plan",
        "enum Way { X, Y } enum Layout { Everywhere, OuterOnly, Bare }",
    )];

    #[test]
    fn the_other_direction() {
        assert_eq!(
            of("fn f() { g(Way::Y) }", &PLAN, changes),
            ["fn f() { g(Way::X) }"]
        );
        assert_eq!(of("fn f() { b.cx }", &PLAN, changes), ["fn f() { b.cy }"]);
        assert_eq!(
            of("fn f() { &spans[X] }", &PLAN, changes),
            ["fn f() { &spans[Y] }"]
        );
    }

    #[test]
    fn along_for_across_once_it_is_named() {
        let found = of("fn f() { let over = across(d); g(d) }", &PLAN, changes);
        assert_eq!(found, ["fn f() { let over = across(d); g(over) }"]);
    }

    #[test]
    fn the_next_variant_but_not_of_a_pattern() {
        let found = of(
            "fn f() { match l { Layout::Bare => Layout::Bare, } }",
            &PLAN,
            changes,
        );
        assert_eq!(
            found,
            ["fn f() { match l { Layout::Bare => Layout::Everywhere, } }"]
        );
    }

    #[test]
    fn truth() {
        assert_eq!(of("fn f() { true }", &PLAN, changes), ["fn f() { false }"]);
    }
}
