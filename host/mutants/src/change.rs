//! One textual change of a function's body or of a constant, and the body that it is made in.

use crate::declared::Declared;
use crate::items::{File, Item};
use crate::lexer::{closing, Class};

#[derive(Clone, Copy, Debug, PartialEq, Eq)]
pub enum Kind {
    /// None: a control, which must be proved.
    Nothing,
    Comparison,
    Operator,
    Number,
    Direction,
    Variant,
    Truth,
    Negation,
    Arguments,
    Arms,
    Statement,
    Callee,
    Import,
}

impl Kind {
    pub fn word(self) -> &'static str {
        match self {
            Kind::Nothing => "nothing",
            Kind::Comparison => "comparison",
            Kind::Operator => "operator",
            Kind::Number => "number",
            Kind::Direction => "direction",
            Kind::Variant => "variant",
            Kind::Truth => "truth",
            Kind::Negation => "negation",
            Kind::Arguments => "arguments",
            Kind::Arms => "arms",
            Kind::Statement => "statement",
            Kind::Callee => "callee",
            Kind::Import => "import",
        }
    }
}

/// The bytes from `from` to `to` are replaced by `new`.
#[derive(Clone, Debug, PartialEq, Eq)]
pub struct Change {
    pub kind: Kind,
    pub from: usize,
    pub to: usize,
    pub new: String,
}

/// What a kind of change looks at.
pub struct Body<'a> {
    pub file: &'a File,
    pub item: &'a Item,
    pub declared: &'a Declared,
}

impl<'a> Body<'a> {
    pub fn places(&self) -> std::ops::Range<usize> {
        self.item.first..self.item.end
    }

    pub fn text(&self, at: usize) -> &'a str {
        self.file
            .tokens
            .get(at)
            .map_or("", |token| token.text(&self.file.source))
    }

    pub fn class(&self, at: usize) -> Option<Class> {
        self.file.tokens.get(at).map(|token| token.class)
    }

    pub fn close(&self, open: usize) -> usize {
        closing(&self.file.source, &self.file.tokens, open)
    }

    /// The source from the first byte of one word to the last of another.
    pub fn between(&self, first: usize, last: usize) -> &'a str {
        &self.file.source[self.file.tokens[first].from..self.file.tokens[last].to]
    }

    pub fn replaced(&self, kind: Kind, at: usize, new: &str) -> Change {
        self.rewritten(kind, at, at, new.to_string())
    }

    pub fn rewritten(&self, kind: Kind, first: usize, last: usize, new: String) -> Change {
        Change {
            kind,
            from: self.file.tokens[first].from,
            to: self.file.tokens[last].to,
            new,
        }
    }

    /// Does the word before end a value, so that a sign here joins two?
    pub fn joins(&self, at: usize) -> bool {
        let before = self.text(at - 1);
        match self.class(at - 1) {
            Some(Class::Name) => !matches!(
                before,
                "return" | "if" | "while" | "match" | "in" | "else" | "let" | "mut"
            ),
            Some(Class::Number) => true,
            _ => matches!(before, ")" | "]"),
        }
    }

    /// What stands between the bracket at `open` and its end, cut at the commas, each part as its first and last word; the commas of inner brackets cut nothing.
    pub fn parts(&self, open: usize) -> Vec<(usize, usize)> {
        let close = self.close(open);
        let mut parts = Vec::new();
        let (mut first, mut at) = (open + 1, open + 1);
        while at < close {
            match self.text(at) {
                "(" | "[" | "{" => at = self.close(at),
                "," => {
                    parts.push((first, at - 1));
                    first = at + 1;
                }
                _ => {}
            }
            at += 1;
        }
        if first < close {
            parts.push((first, close - 1));
        }
        parts
    }

    /// Two stretches of words put in each other's place.
    pub fn exchanged(
        &self,
        kind: Kind,
        one: (usize, usize),
        two: (usize, usize),
    ) -> Option<Change> {
        let (a, b) = (self.between(one.0, one.1), self.between(two.0, two.1));
        let middle = &self.file.source[self.file.tokens[one.1].to..self.file.tokens[two.0].from];
        (a != b).then(|| self.rewritten(kind, one.0, two.1, format!("{b}{middle}{a}")))
    }
}

/// Every change of a body.
pub fn changes(body: &Body) -> Vec<Change> {
    let mut all = crate::signs::changes(body);
    all.extend(crate::callees::changes(body));
    all.extend(crate::imports::changes(body));
    all.extend(crate::numbers::changes(body));
    all.extend(crate::names::changes(body));
    all.extend(crate::exchanges::changes(body));
    all.extend(crate::statements::changes(body));
    all.sort_by_key(|change| (change.from, change.to));
    all
}

/// For tests: a file with each change that a kind makes in it, where other modules are declared too.
#[cfg(test)]
pub fn of(source: &str, others: &[(&str, &str)], kind: fn(&Body) -> Vec<Change>) -> Vec<String> {
    let mut declared = Declared::default();
    for (module, text) in others {
        declared.add(&File::read(module, text.to_string()));
    }
    let file = File::read("m", source.to_string());
    declared.add(&file);
    let show = |change: Change| {
        format!(
            "{}{}{}",
            &source[..change.from],
            change.new,
            &source[change.to..]
        )
    };
    let of_item = |item| {
        kind(&Body {
            file: &file,
            item,
            declared: &declared,
        })
    };
    file.items.iter().flat_map(of_item).map(show).collect()
}
