//! The functions and constants of a file, and the enums that it declares.

use crate::lexer::{closing, tokens, Token};

/// A function or a constant: its name with the modules before it, and its words.
#[derive(Clone, Debug)]
pub struct Item {
    pub name: String,
    pub constant: bool,
    pub public: bool,
    /// The type that it is a method of.
    pub of: Option<String>,
    /// Its first word, `fn` or `const`; then the words that may be changed, from one to the end of them.
    pub head: usize,
    pub first: usize,
    pub end: usize,
}

/// An enum and those of its variants that hold nothing.
#[derive(Clone, Debug, PartialEq, Eq)]
pub struct Enum {
    pub name: String,
    pub variants: Vec<String>,
}

pub struct File {
    pub source: String,
    pub tokens: Vec<Token>,
    pub items: Vec<Item>,
    pub enums: Vec<Enum>,
}

impl File {
    pub fn read(module: &str, source: String) -> Self {
        let tokens = tokens(&source);
        let mut reader = Reader {
            source: &source,
            tokens: &tokens,
            items: Vec::new(),
            enums: Vec::new(),
        };
        reader.walk(module, None, 0, tokens.len());
        let (items, enums) = (reader.items, reader.enums);
        Self {
            source,
            tokens,
            items,
            enums,
        }
    }

    pub fn text(&self, at: usize) -> &str {
        self.tokens[at].text(&self.source)
    }

    /// The line of a byte, from 1 on.
    pub fn line_of(&self, byte: usize) -> usize {
        self.source[..byte].matches('\n').count() + 1
    }

    pub fn column_of(&self, byte: usize) -> usize {
        let start = self.source[..byte].rfind('\n').map_or(0, |at| at + 1);
        self.source[start..byte].chars().count() + 1
    }

    /// The lines from an item's first word to its last.
    pub fn lines_of(&self, item: &Item) -> (usize, usize) {
        let last = item.end.min(self.tokens.len()) - 1;
        (
            self.line_of(self.tokens[item.head].from),
            self.line_of(self.tokens[last].from),
        )
    }
}

struct Reader<'a> {
    source: &'a str,
    tokens: &'a [Token],
    items: Vec<Item>,
    enums: Vec<Enum>,
}

impl<'a> Reader<'a> {
    fn text(&self, at: usize) -> &'a str {
        self.tokens
            .get(at)
            .map_or("", |token| token.text(self.source))
    }

    fn find(&self, from: usize, sign: &str) -> usize {
        (from..self.tokens.len())
            .find(|&at| self.text(at) == sign)
            .unwrap_or(self.tokens.len())
    }

    fn close(&self, open: usize) -> usize {
        closing(self.source, self.tokens, open)
    }

    fn walk(&mut self, path: &str, of: Option<&str>, from: usize, to: usize) {
        let mut at = from;
        let mut public = false;
        while at < to {
            let after = match self.text(at) {
                "pub" => {
                    public = true;
                    at += 1;
                    continue;
                }
                "fn" => self.function(path, of, at, public),
                "const" => self.constant(path, at, public),
                "enum" => self.declared(at),
                "struct" => self.close(self.find(at, "{")) + 1,
                "impl" => {
                    let open = self.find(at, "{");
                    let close = self.close(open);
                    let of = self.text(open - 1);
                    self.walk(&format!("{path}::{of}"), Some(of), open + 1, close);
                    close + 1
                }
                "use" => self.import(path, at),
                "mod" => self.find(at, ";") + 1,
                "[" => self.close(at) + 1,
                _ => {
                    at += 1;
                    continue;
                }
            };
            public = false;
            at = after;
        }
    }

    // The body is the first block that no word of a contract stands before.
    fn function(&mut self, path: &str, of: Option<&str>, at: usize, public: bool) -> usize {
        let name = format!("{path}::{}", self.text(at + 1));
        let mut next = at + 2;
        while next < self.tokens.len() {
            match self.text(next) {
                // A clause may have a name of its own.
                "requires" | "ensures" => next = self.close(self.find(next, "{")) + 1,
                "ghost" if self.text(next + 1) == "{" => next = self.close(next + 1) + 1,
                "(" | "[" => next = self.close(next) + 1,
                ";" => return next + 1,
                "{" => break,
                _ => next += 1,
            }
        }
        let end = self.close(next) + 1;
        self.items.push(Item {
            name,
            constant: false,
            public,
            of: of.map(str::to_string),
            head: at,
            first: next,
            end,
        });
        end
    }

    fn constant(&mut self, path: &str, at: usize, public: bool) -> usize {
        let equals = self.find(at, "=");
        let mut end = equals;
        while end < self.tokens.len() && self.text(end) != ";" {
            end = if self.text(end) == "[" {
                self.close(end) + 1
            } else {
                end + 1
            };
        }
        self.items.push(Item {
            name: format!("{path}::{}", self.text(at + 1)),
            constant: true,
            public,
            of: None,
            head: at,
            first: at + 2,
            end,
        });
        end + 1
    }

    // Of a constant, which is written in capitals, and of nothing else.
    fn import(&mut self, path: &str, at: usize) -> usize {
        let end = self.find(at, ";");
        let name = self.text(end - 1);
        if name.chars().all(|c| c.is_ascii_uppercase() || c == '_') {
            self.items.push(Item {
                name: format!("{path}::{name}"),
                constant: true,
                public: false,
                of: None,
                head: at,
                first: at + 1,
                end,
            });
        }
        end + 1
    }

    fn declared(&mut self, at: usize) -> usize {
        let open = self.find(at, "{");
        let close = self.close(open);
        let bare = |&i: &usize| {
            matches!(self.text(i + 1), "," | "}") && matches!(self.text(i - 1), "{" | ",")
        };
        let variants = (open + 1..close)
            .filter(bare)
            .map(|i| self.text(i).to_string())
            .collect();
        self.enums.push(Enum {
            name: self.text(at + 1).to_string(),
            variants,
        });
        close + 1
    }
}

#[cfg(test)]
mod tests {
    use super::*;

    const SOURCE: &str = "ghost use a.{b};
use c::d;
pub const WIDTHS: [u64; 2] = [16, 17];
pub enum Rule { Columns, Beams(Layout), Depth }
pub fn half(n: u64) -> [u64; 2]
    requires { n ≡ 2 }
    ensures lower { result ≡ record { a = 1 } }
{
    n / 2
}
impl Section {
    fn of(w: u64) -> Self { w }
}
";

    #[test]
    fn names_have_their_modules() {
        let file = File::read("floor::refusal", SOURCE.to_string());
        let names: Vec<&str> = file.items.iter().map(|item| item.name.as_str()).collect();
        let expected = [
            "floor::refusal::WIDTHS",
            "floor::refusal::half",
            "floor::refusal::Section::of",
        ];
        assert_eq!(names, expected);
        assert!(file.items[0].public && file.items[0].constant);
        assert!(!file.items[2].public);
    }

    #[test]
    fn a_contract_is_no_body() {
        let file = File::read("m", SOURCE.to_string());
        let body = &file.items[1];
        let words: Vec<&str> = (body.first..body.end).map(|at| file.text(at)).collect();
        assert_eq!(words, ["{", "n", "/", "2", "}"]);
        assert_eq!(file.lines_of(body), (5, 10));
    }

    #[test]
    fn a_table_is_read_to_its_end() {
        let file = File::read("m", SOURCE.to_string());
        let table = &file.items[0];
        assert_eq!(file.text(table.end), ";");
        assert_eq!(file.text(table.end - 2), "17");
    }

    #[test]
    fn a_constant_that_is_imported_is_an_item() {
        let file = File::read(
            "m",
            "use plan::read;\nuse tables::write::WIDTH;\n".to_string(),
        );
        assert_eq!(file.items.len(), 1);
        assert_eq!(file.items[0].name, "m::WIDTH");
    }

    #[test]
    fn variants_that_hold_something_are_left_out() {
        let file = File::read("m", SOURCE.to_string());
        assert_eq!(file.enums[0].variants, ["Columns", "Depth"]);
    }
}
