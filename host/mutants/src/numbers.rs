//! Each number one more, and one less where it is above 0.

use crate::change::{Body, Change, Kind};
use crate::lexer::Class;

pub fn changes(body: &Body) -> Vec<Change> {
    let mut all = Vec::new();
    for at in body
        .places()
        .filter(|&at| body.class(at) == Some(Class::Number))
    {
        let text = body.text(at);
        let digits = text
            .find(|c: char| !c.is_ascii_digit())
            .unwrap_or(text.len());
        let Ok(number) = text[..digits].parse::<u64>() else {
            continue;
        };
        let length = body.text(at - 1) == ";" && body.text(at + 1) == "]";
        all.push(body.replaced(
            Kind::Number,
            at,
            &format!("{}{}", number + 1, &text[digits..]),
        ));
        if number > 0 && !length {
            all.push(body.replaced(
                Kind::Number,
                at,
                &format!("{}{}", number - 1, &text[digits..]),
            ));
        }
    }
    all
}

#[cfg(test)]
mod tests {
    use super::*;
    use crate::change::of;

    #[test]
    fn one_more_and_one_less() {
        assert_eq!(
            of("fn f() { 10 }", &[], changes),
            ["fn f() { 11 }", "fn f() { 9 }"]
        );
    }

    #[test]
    fn nothing_is_less_than_0() {
        assert_eq!(of("fn f() { 0u8 }", &[], changes), ["fn f() { 1u8 }"]);
    }

    #[test]
    fn the_length_of_an_array_is_made_longer_alone() {
        assert_eq!(
            of("const A: [u64; 3] = B;", &[], changes),
            ["const A: [u64; 4] = B;"]
        );
    }

    #[test]
    fn the_number_in_a_signature_stays() {
        assert!(of("fn f(a: [u64; 3]) -> u64 { a }", &[], changes).is_empty());
    }
}
