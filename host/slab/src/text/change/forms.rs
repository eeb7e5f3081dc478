//! The words that a change is read from.

use super::Change;
use crate::text::line::{beam_sizes, offset_sizes, with_example};
use crate::text::words::Words;
use crate::way::Way;

struct Form {
    /// The words that the change begins with.
    key: &'static str,
    read: fn(&mut Words) -> Result<Change, String>,
    example: &'static str,
}

const FORMS: [Form; 8] = [
    Form {
        key: "x span",
        read: |words| span(Way::X, words),
        example: "x span 2 6600",
    },
    Form {
        key: "y span",
        read: |words| span(Way::Y, words),
        example: "y span 0 6000",
    },
    Form {
        key: "x line",
        read: |words| beam(Way::X, words),
        example: "x line 0 beam 400 700",
    },
    Form {
        key: "y line",
        read: |words| beam(Way::Y, words),
        example: "y line 2 beam 0 0",
    },
    Form {
        key: "column",
        read: offset,
        example: "column 2 0 offset 250 0",
    },
    Form {
        key: "dead",
        read: |words| Ok(Change::Dead(words.number(DEAD)?)),
        example: "dead 7200",
    },
    Form {
        key: "live",
        read: |words| Ok(Change::Live(words.number(LIVE)?)),
        example: "live 5000",
    },
    Form {
        key: "loads",
        read: |words| Ok(Change::Loads(words.number(DEAD)?, words.number(LIVE)?)),
        example: "loads 7200 5000",
    },
];

const DEAD: &str = "the dead load in N/m2";
const LIVE: &str = "the live load in N/m2";

/// The fault's words where it cannot be read.
pub fn read(words: &[u8]) -> Result<Change, String> {
    let mut words = Words::of(words)?;
    let Some(form) = FORMS.iter().find(|form| words.pass(form.key)) else {
        let keys = FORMS.map(|form| form.key).join(", ");
        return Err(words.instead_of(&format!("a change that begins with one of {keys}")));
    };
    let change = (form.read)(&mut words);
    let whole = change.and_then(|change| words.end().map(|()| change));
    with_example(whole, form.example)
}

fn span(way: Way, words: &mut Words) -> Result<Change, String> {
    let index = words.index(&format!("the {} span's number", way.name()))?;
    Ok(Change::Span(way, index, words.number("the span in mm")?))
}

fn beam(way: Way, words: &mut Words) -> Result<Change, String> {
    let index = words.index(&format!("the {} line's number", way.name()))?;
    Ok(Change::Beam(way, index, beam_sizes(words)?))
}

fn offset(words: &mut Words) -> Result<Change, String> {
    let i = words.index("the column's y line")?;
    let j = words.index("the column's x line")?;
    Ok(Change::Offset([i, j], offset_sizes(words)?))
}
