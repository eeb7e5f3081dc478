//! A crate's files, what they declare, and all its mutants.

use crate::change::{changes, Body, Change, Kind};
use crate::declared::Declared;
use crate::items::{File, Item};
use std::collections::BTreeSet;
use std::fs;
use std::io;
use std::path::{Path, PathBuf};

/// A file of `src/`, by its path from there.
pub struct Source {
    pub path: PathBuf,
    pub file: File,
}

/// One change of one item of one file.
pub struct Mutant {
    pub source: usize,
    pub item: usize,
    pub change: Change,
}

pub struct Catalogue {
    pub sources: Vec<Source>,
    pub mutants: Vec<Mutant>,
}

impl Catalogue {
    pub fn read(crates: &Path, name: &str) -> io::Result<Self> {
        let mut declared = Declared::default();
        for entry in fs::read_dir(crates)? {
            let path = entry?.path();
            let other = path
                .file_name()
                .unwrap_or_default()
                .to_string_lossy()
                .into_owned();
            for Source { file, .. } in sources_of(&path, &other)? {
                declared.add(&file);
            }
        }
        Ok(Self::of(sources_of(&crates.join(name), name)?, &declared))
    }

    pub fn of(sources: Vec<Source>, declared: &Declared) -> Self {
        let mut mutants = Vec::new();
        for (source, Source { file, .. }) in sources.iter().enumerate() {
            for (item, own) in file.items.iter().enumerate() {
                let body = Body {
                    file,
                    item: own,
                    declared,
                };
                if own.constant && !used(&sources, own) {
                    continue;
                }
                mutants.extend(changes(&body).into_iter().map(|change| Mutant {
                    source,
                    item,
                    change,
                }));
            }
        }
        Self { sources, mutants }
    }

    pub fn item(&self, mutant: &Mutant) -> &Item {
        &self.sources[mutant.source].file.items[mutant.item]
    }

    /// For each function of some mutants, one in which nothing is changed.
    pub fn controls(&self, mutants: &[usize]) -> Vec<Mutant> {
        let items = mutants
            .iter()
            .map(|&m| &self.mutants[m])
            .map(|m| (m.source, m.item));
        let items: BTreeSet<(usize, usize)> = items.collect();
        let control = |(source, item): (usize, usize)| {
            let Source { file, .. } = &self.sources[source];
            let at = file.tokens[file.items[item].first].from;
            let change = Change {
                kind: Kind::Nothing,
                from: at,
                to: at,
                new: String::new(),
            };
            Mutant {
                source,
                item,
                change,
            }
        };
        items.into_iter().map(control).collect()
    }

    /// Where a mutant is and what it changes, on one line.
    pub fn label(&self, mutant: &Mutant) -> String {
        let Source { path, file } = &self.sources[mutant.source];
        let change = &mutant.change;
        format!(
            "src/{}:{}:{}\t{}\t{} -> {}",
            path.display(),
            file.line_of(change.from),
            file.column_of(change.from),
            change.kind.word(),
            on_one_line(&file.source[change.from..change.to]),
            on_one_line(&change.new)
        )
    }

    /// Every file, one of them with the change that a mutant makes in it.
    pub fn changed(&self, mutant: &Mutant) -> Vec<String> {
        let mut texts: Vec<String> = self.sources.iter().map(|s| s.file.source.clone()).collect();
        let change = &mutant.change;
        texts[mutant.source].replace_range(change.from..change.to, &change.new);
        texts
    }
}

fn on_one_line(text: &str) -> String {
    text.split_whitespace().collect::<Vec<_>>().join(" ")
}

// A constant that its own crate does not use is changed where it is imported.
fn used(sources: &[Source], constant: &Item) -> bool {
    let name = constant.name.rsplit("::").next();
    let names =
        |file: &File, item: &Item| (item.first..item.end).any(|at| Some(file.text(at)) == name);
    sources.iter().any(|source| {
        source
            .file
            .items
            .iter()
            .any(|item| names(&source.file, item))
    })
}

fn sources_of(folder: &Path, name: &str) -> io::Result<Vec<Source>> {
    let src = folder.join("src");
    let mut found = Vec::new();
    for path in if src.is_dir() {
        files_below(&src)?
    } else {
        Vec::new()
    } {
        let inside = path
            .strip_prefix(&src)
            .expect("a path below the folder that it was found in")
            .to_path_buf();
        let file = File::read(&module_of(name, &inside), fs::read_to_string(&path)?);
        found.push(Source { path: inside, file });
    }
    Ok(found)
}

/// Every file below a folder, in the order of their paths.
pub fn files_below(folder: &Path) -> io::Result<Vec<PathBuf>> {
    let mut found = Vec::new();
    for entry in fs::read_dir(folder)? {
        let path = entry?.path();
        if path.is_dir() {
            found.extend(files_below(&path)?);
        } else {
            found.push(path);
        }
    }
    found.sort();
    Ok(found)
}

// `floor::refusal` for `refusal.rt` of crate floor, and the crate's name for its root.
fn module_of(name: &str, inside: &Path) -> String {
    let mut module = name.to_string();
    for part in inside.with_extension("").components() {
        let part = part.as_os_str().to_string_lossy();
        if !matches!(part.as_ref(), "lib" | "main" | "mod") {
            module = format!("{module}::{part}");
        }
    }
    module
}

#[cfg(test)]
mod tests {
    use super::*;

    fn catalogue() -> Catalogue {
        let source = "fn f() {\n    a < 1\n}\nfn g() {\n    !b\n}\n".to_string();
        let path = PathBuf::from("query.rt");
        let file = File::read(&module_of("steel", &path), source);
        Catalogue::of(vec![Source { path, file }], &Declared::default())
    }

    #[test]
    fn labels_say_where_and_what() {
        let all = catalogue();
        let labels: Vec<String> = all.mutants.iter().map(|m| all.label(m)).collect();
        assert_eq!(
            labels,
            [
                "src/query.rt:2:7\tcomparison\t< -> <=",
                "src/query.rt:2:9\tnumber\t1 -> 2",
                "src/query.rt:2:9\tnumber\t1 -> 0",
                "src/query.rt:5:5\tnegation\t! -> ",
            ]
        );
    }

    #[test]
    fn one_change_in_its_place() {
        let all = catalogue();
        let text = "fn f() {\n    a < 1\n}\nfn g() {\n    b\n}\n";
        assert_eq!(all.changed(&all.mutants[3]), [text]);
    }

    #[test]
    fn a_control_changes_nothing() {
        let all = catalogue();
        let controls = all.controls(&[0, 1, 3]);
        assert_eq!(controls.len(), 2);
        assert_eq!(
            all.changed(&controls[1]),
            [all.sources[0].file.source.clone()]
        );
    }

    #[test]
    fn modules_follow_the_files() {
        assert_eq!(module_of("steel", Path::new("lib.rt")), "steel");
        assert_eq!(module_of("steel", Path::new("a/b.rt")), "steel::a::b");
    }
}
