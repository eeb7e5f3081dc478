//! The Rattle kit, and the words that `rt` gives to `rattle` for a crate.

use std::env;
use std::ffi::OsString;
use std::fs;
use std::io;
use std::path::{Path, PathBuf};

pub struct Kit {
    home: PathBuf,
}

impl Kit {
    /// As `rt` finds it: beside `rt` itself.
    pub fn find() -> Result<Self, String> {
        let home = beside_rt().ok_or("rt is not on the path")?;
        if home.join("bin/rattle").is_file() {
            Ok(Self { home })
        } else {
            Err(format!("there is no kit at {}", home.display()))
        }
    }

    pub fn rattle(&self) -> PathBuf {
        self.home.join("bin/rattle")
    }

    /// For a crate whose files stand in `folder`, over the proved libraries below `crates`.
    pub fn words(
        &self,
        list: &[Listed],
        own: &Listed,
        folder: &Path,
        crates: &Path,
    ) -> Vec<OsString> {
        let root = ["main.rt", "lib.rt"]
            .iter()
            .map(|file| folder.join("src").join(file))
            .find(|file| file.is_file());
        let mut words: Vec<OsString> = vec!["--crate-name".into(), own.name.clone().into()];
        words.push(root.unwrap_or_default().into());
        if own.is_static {
            words.extend(["--crate-type".into(), "staticlib".into()]);
        }
        let kit = self.home.join("rlibs");
        let built = |name: &str| crates.join(name).join("out/rlib");
        words.extend(["--extern".into(), joined("std=", &kit.join("std.rlib"))]);
        for library in &own.uses {
            let ours = list.iter().any(|listed| listed.name == *library);
            let at = if ours { built(library) } else { kit.clone() };
            words.extend([
                "--extern".into(),
                joined(&format!("{library}="), &at.join(format!("{library}.rlib"))),
            ]);
        }
        for at in list.iter().map(|listed| built(&listed.name)).chain([kit]) {
            words.extend(["-L".into(), joined("dependency=", &at)]);
        }
        words.extend([
            "--antt-project".into(),
            self.home.join("rattle/logic/antt-project.json").into(),
        ]);
        words.extend(["--logic-built".into(), self.home.join("logic_built").into()]);
        words
    }
}

fn beside_rt() -> Option<PathBuf> {
    let path = env::var_os("PATH")?;
    let rt = env::split_paths(&path)
        .map(|folder| folder.join("rt"))
        .find(|rt| rt.is_file())?;
    Some(fs::canonicalize(rt).ok()?.parent()?.parent()?.to_path_buf())
}

fn joined(before: &str, path: &Path) -> OsString {
    let mut word = OsString::from(before);
    word.push(path);
    word
}

/// A line of crates.txt.
#[derive(Debug, PartialEq, Eq)]
pub struct Listed {
    pub name: String,
    /// A library for C.
    pub is_static: bool,
    pub uses: Vec<String>,
}

/// The crates of a repository, in the order of crates.txt.
pub fn listed(repository: &Path) -> io::Result<Vec<Listed>> {
    Ok(read_list(&fs::read_to_string(
        repository.join("crates.txt"),
    )?))
}

fn read_list(text: &str) -> Vec<Listed> {
    let lines = text
        .lines()
        .map(|line| line.split('#').next().unwrap_or(""));
    let entry = |line: &str| {
        let (own, uses) = line.split_once(':')?;
        let mut own = own.split_whitespace();
        Some(Listed {
            name: own.next()?.to_string(),
            is_static: own.any(|word| word == "staticlib"),
            uses: uses.split_whitespace().map(str::to_string).collect(),
        })
    };
    lines.filter_map(entry).collect()
}

#[cfg(test)]
mod tests {
    use super::*;

    #[test]
    fn the_list_of_crates() {
        let text =
            "# bottom up: all\nnumbers:\nplan: numbers records # by name\nplan_c staticlib: plan\n";
        let line = |name: &str, is_static, uses: &[&str]| Listed {
            name: name.to_string(),
            is_static,
            uses: uses.iter().map(|library| library.to_string()).collect(),
        };
        assert_eq!(
            read_list(text),
            [
                line("numbers", false, &[]),
                line("plan", false, &["numbers", "records"]),
                line("plan_c", true, &["plan"]),
            ]
        );
    }

    #[test]
    fn a_library_of_the_repository_and_one_of_the_kit() {
        let kit = Kit {
            home: PathBuf::from("/kit"),
        };
        let list = read_list("low:\nhigh: low hex\n");
        let words = kit.words(&list, &list[1], Path::new("/room"), Path::new("/crates"));
        let has = |word: &str| words.iter().any(|one| one == word);
        assert!(has("low=/crates/low/out/rlib/low.rlib"));
        assert!(has("hex=/kit/rlibs/hex.rlib"));
        assert!(has("dependency=/crates/low/out/rlib"));
        assert!(has("dependency=/kit/rlibs"));
    }
}
