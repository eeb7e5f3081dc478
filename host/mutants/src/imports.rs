//! A constant of another crate with another value, as the file that imports it sees it: the import is replaced by a constant of that file's own.

use crate::change::{Body, Change, Kind};
use crate::items::{File, Item};

/// A public constant that is one number: its path, its type and its value.
#[derive(Clone, Debug, PartialEq, Eq)]
pub struct Constant {
    path: String,
    of: String,
    value: u64,
}

impl Constant {
    /// Its words are `: TYPE = VALUE`.
    pub fn read(file: &File, item: &Item) -> Option<Self> {
        if !item.public || !item.constant || item.end != item.first + 4 {
            return None;
        }
        Some(Self {
            path: item.name.clone(),
            of: file.text(item.first + 1).to_string(),
            value: file.text(item.first + 3).parse().ok()?,
        })
    }
}

pub fn changes(body: &Body) -> Vec<Change> {
    let path: String = body.places().map(|at| body.text(at)).collect();
    let constants = &body.declared.constants;
    let Some(constant) = constants.iter().find(|constant| constant.path == path) else {
        return Vec::new();
    };
    let name = body.text(body.item.end - 1);
    let values = [Some(constant.value + 1), constant.value.checked_sub(1)];
    let line = |value| format!("const {name}: {} = {value}", constant.of);
    let change =
        |value| body.rewritten(Kind::Import, body.item.head, body.item.end - 1, line(value));
    values.into_iter().flatten().map(change).collect()
}

#[cfg(test)]
mod tests {
    use super::*;
    use crate::change::of;

    const WRITE: [(&str, &str); 1] = [(
        "tables::write",
        "pub const WIDTH: usize = 16;\nconst OWN: u32 = 1;\n",
    )];

    #[test]
    fn the_import_becomes_a_constant() {
        let found = of("use tables::write::WIDTH;", &WRITE, changes);
        assert_eq!(
            found,
            ["const WIDTH: usize = 17;", "const WIDTH: usize = 15;"]
        );
    }

    #[test]
    fn public_constants_alone() {
        assert!(of("use tables::write::OWN;", &WRITE, changes).is_empty());
        assert!(of("use tables::write::OTHER;", &WRITE, changes).is_empty());
    }
}
