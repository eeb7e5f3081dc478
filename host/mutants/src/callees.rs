//! Another function called: the next one of the same module that takes and returns the same types.

use crate::change::{Body, Change, Kind};
use crate::items::{File, Item};
use crate::lexer::Class;

/// A function by its path, with the types that it takes and returns.
#[derive(Clone, Debug, PartialEq, Eq)]
pub struct Function {
    path: String,
    public: bool,
    types: String,
}

impl Function {
    pub fn read(file: &File, item: &Item) -> Option<Self> {
        let open = item.head + 2;
        if item.constant || file.text(open) != "(" {
            return None;
        }
        let mut types = String::new();
        let mut depth = 0;
        let mut taken = true;
        for at in open..item.first {
            match file.text(at) {
                "self" => return None,
                "requires" | "ensures" | "ghost" => break,
                "(" | "[" => depth += 1,
                ")" | "]" => depth -= 1,
                _ => {}
            }
            let name = depth == 1 && file.text(at + 1) == ":";
            taken = if name {
                false
            } else {
                taken || file.text(at) == ":"
            };
            if taken {
                types.push_str(file.text(at));
            }
        }
        Some(Self {
            path: item.name.clone(),
            public: item.public,
            types,
        })
    }

    fn module(&self) -> &str {
        self.path.rsplit_once("::").map_or("", |(module, _)| module)
    }

    fn name(&self) -> &str {
        self.path.rsplit("::").next().unwrap_or_default()
    }
}

pub fn changes(body: &Body) -> Vec<Change> {
    let functions = &body.declared.functions;
    let call = |&at: &usize| {
        body.class(at) == Some(Class::Name) && body.text(at + 1) == "(" && body.text(at - 1) != "."
    };
    let other = |at: usize| {
        let called = resolved(body, functions, at)?;
        let new = written(body, next(body, functions, called)?);
        Some(body.rewritten(Kind::Callee, path_start(body, at), at, new))
    };
    body.places().filter(call).filter_map(other).collect()
}

fn path_start(body: &Body, at: usize) -> usize {
    let mut first = at;
    while body.text(first - 1) == "::" {
        first -= 2;
    }
    first
}

// By the module that is written before the name, by an import, or in the caller's own module.
fn resolved<'f>(body: &Body, functions: &'f [Function], at: usize) -> Option<&'f Function> {
    let first = path_start(body, at);
    let name = body.text(at);
    let mut path: String = (first..=at).map(|i| body.text(i)).collect();
    if first == at {
        let imports = (0..body.item.head).filter(|&i| body.text(i) == "use");
        let imported = imports.map(|i| i + 1).find_map(|from| {
            let end = (from..).find(|&i| body.text(i) == ";")?;
            (body.text(end - 1) == name).then(|| (from..end).map(|i| body.text(i)).collect())
        });
        path = imported.unwrap_or(format!("{}::{name}", module_of(&body.item.name)));
    }
    let end = format!("::{}", path.trim_start_matches("crate::"));
    functions
        .iter()
        .find(|f| format!("::{}", f.path).ends_with(&end))
}

fn module_of(path: &str) -> &str {
    path.rsplit_once("::").map_or("", |(module, _)| module)
}

// One that the caller may call, and that is not the caller itself.
fn next<'f>(body: &Body, functions: &'f [Function], called: &Function) -> Option<&'f Function> {
    let home = module_of(&body.item.name) == called.module();
    let alike = |f: &&Function| {
        f.module() == called.module()
            && f.types == called.types
            && f.path != body.item.name
            && (home || f.public)
    };
    let all: Vec<&Function> = functions.iter().filter(alike).collect();
    let place = all.iter().position(|f| f.path == called.path)?;
    let next = all[(place + 1) % all.len()];
    (next.path != called.path).then_some(next)
}

fn written(body: &Body, called: &Function) -> String {
    let own = body.item.name.split("::").next();
    match called.path.split_once("::") {
        _ if called.module() == module_of(&body.item.name) => called.name().to_string(),
        Some((name, rest)) if Some(name) == own => format!("crate::{rest}"),
        _ => called.path.clone(),
    }
}

#[cfg(test)]
mod tests {
    use super::*;
    use crate::change::of;

    const NUMBERS: [(&str, &str); 1] = [(
        "numbers",
        "pub fn less(a: u64) -> u64 { a } pub fn more(a: u64) -> u64 { a } fn own(a: u64) -> u64 { a }",
    )];

    #[test]
    fn the_next_of_the_same_types() {
        let others =
            " fn g(b: u64) -> u64 { b } fn h(c: u64) -> u64 { c } fn k(c: u32) -> u64 { c }";
        let found = of(
            &format!("fn f(a: u64) -> u64 {{ g(a) }}{others}"),
            &[],
            changes,
        );
        assert_eq!(found, [format!("fn f(a: u64) -> u64 {{ h(a) }}{others}")]);
    }

    #[test]
    fn an_imported_one_by_its_path() {
        let found = of("use numbers::more; fn f() { more(a) }", &NUMBERS, changes);
        assert_eq!(found, ["use numbers::more; fn f() { numbers::less(a) }"]);
        let found = of("fn f() { numbers::less(a) }", &NUMBERS, changes);
        assert_eq!(found, ["fn f() { numbers::more(a) }"]);
    }

    #[test]
    fn arrays_and_references_are_types() {
        let others = " fn g(b: &[u64; 2]) { b } fn h(c: &[u64; 3]) { c } fn k(c: &[u64; 2]) { c }";
        let found = of(&format!("fn f() {{ g(a); }}{others}"), &[], changes);
        assert_eq!(found, [format!("fn f() {{ k(a); }}{others}")]);
    }

    #[test]
    fn a_method_and_a_function_without_a_like_stay() {
        assert!(of(
            "fn f() { a.g(b) } fn g(b: u64) { b } fn h(b: u64) { b }",
            &[],
            changes
        )
        .is_empty());
        assert!(of("fn f() { g(b) } fn g(b: u64) { b }", &[], changes).is_empty());
    }
}
