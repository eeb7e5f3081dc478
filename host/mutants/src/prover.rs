//! A copy of a crate, changed and put to the prover over what it has proved before.

use crate::catalogue::{files_below, Catalogue, Mutant};
use crate::kit::{Kit, Listed};
use crate::outcome::Said;
use crate::twins::{added, Twin};
use std::ffi::OsString;
use std::fs::{self, File};
use std::io;
use std::path::{Path, PathBuf};
use std::process::{self, Command, Stdio};
use std::thread::sleep;
use std::time::{Duration, Instant};

// A run that takes longer is stopped, and tells nothing.
const LONGEST: Duration = Duration::from_secs(600);

pub struct Prover<'a> {
    kit: &'a Kit,
    list: &'a [Listed],
    own: &'a Listed,
    crates: PathBuf,
    room: PathBuf,
}

impl Drop for Prover<'_> {
    fn drop(&mut self) {
        let _ = fs::remove_dir_all(&self.room);
    }
}

impl<'a> Prover<'a> {
    /// With a copy of the crate in a folder of its own, proved there as it stands. It stands outside the repository, in which the gate refuses code and
    /// proofs that no check reads.
    pub fn start(
        kit: &'a Kit,
        repository: &Path,
        list: &'a [Listed],
        own: &'a Listed,
    ) -> Result<Self, String> {
        let name = &own.name;
        let room = std::env::temp_dir().join(format!("mutants-{name}-{}", process::id()));
        let crates = repository.join("crates");
        let prover = Self {
            kit,
            list,
            own,
            crates,
            room,
        };
        let io = |trouble: io::Error| format!("{name}: {trouble}");
        prover.copy_crate(&prover.crates.join(name)).map_err(io)?;
        let said = prover.run(&prover.words(Some("proved"))).map_err(io)?;
        if said.proved() {
            Ok(prover)
        } else {
            Err(format!(
                "{name} is not proved as it stands; rt check in its folder says why"
            ))
        }
    }

    fn copy_crate(&self, from: &Path) -> io::Result<()> {
        if self.room.exists() {
            fs::remove_dir_all(&self.room)?;
        }
        for part in ["src", "specs", "proofs"] {
            if from.join(part).is_dir() {
                copy(&from.join(part), &self.room.join(part), |a, b| {
                    fs::copy(a, b).map(|_| ())
                })?;
            }
        }
        fs::create_dir_all(self.room.join("proved"))
    }

    fn words(&self, incremental: Option<&str>) -> Vec<OsString> {
        let mut words = self
            .kit
            .words(self.list, self.own, &self.room, &self.crates);
        if let Some(folder) = incremental {
            words.extend(["--incremental".into(), self.room.join(folder).into()]);
        }
        words
    }

    /// Many mutants, each as a twin of its function.
    pub fn twins(&self, all: &Catalogue, mutants: &[&Mutant]) -> io::Result<(Said, Vec<Twin>)> {
        let (texts, twins) = added(all, mutants);
        self.write(all, &texts)?;
        let proofs = self.room.join("proofs");
        for twin in &twins {
            let (own, original) = twin.folders();
            for file in ["Answers.antt", "Invariants.antt", "Proof.antt"] {
                if let Ok(text) = fs::read_to_string(proofs.join(&original).join(file)) {
                    fs::create_dir_all(proofs.join(&own))?;
                    fs::write(proofs.join(&own).join(file), twin.proof(&text))?;
                }
            }
        }
        let said = self.quickly()?;
        for folder in twins.iter().map(|twin| proofs.join(twin.folders().0)) {
            if folder.exists() {
                fs::remove_dir_all(folder)?;
            }
        }
        Ok((said, twins))
    }

    /// One mutant in its place.
    pub fn alone(&self, all: &Catalogue, mutant: &Mutant) -> io::Result<Said> {
        self.write(all, &all.changed(mutant))?;
        self.quickly()
    }

    /// The same, and the whole crate from nothing.
    pub fn wholly(&self, all: &Catalogue, mutant: &Mutant) -> io::Result<Said> {
        self.write(all, &all.changed(mutant))?;
        self.run(&self.words(None))
    }

    // Over links to what was proved, which the prover replaces and does not write into: only what is new or changed is proved.
    fn quickly(&self) -> io::Result<Said> {
        let tried = self.room.join("tried");
        if tried.exists() {
            fs::remove_dir_all(&tried)?;
        }
        copy(&self.room.join("proved"), &tried, |a, b| {
            fs::hard_link(a, b)
        })?;
        self.run(&self.words(Some("tried")))
    }

    fn write(&self, all: &Catalogue, texts: &[String]) -> io::Result<()> {
        for (source, text) in all.sources.iter().zip(texts) {
            fs::write(self.room.join("src").join(&source.path), text)?;
        }
        Ok(())
    }

    fn run(&self, words: &[OsString]) -> io::Result<Said> {
        let log = self.room.join("log");
        let out = File::create(&log)?;
        let mut command = Command::new(self.kit.rattle());
        command
            .arg("check")
            .args(words)
            .stdin(Stdio::null())
            .stdout(out.try_clone()?)
            .stderr(out);
        let mut child = command.spawn()?;
        let began = Instant::now();
        while child.try_wait()?.is_none() {
            if began.elapsed() > LONGEST {
                child.kill()?;
                child.wait()?;
                break;
            }
            sleep(Duration::from_millis(20));
        }
        Ok(Said::new(&String::from_utf8_lossy(&fs::read(&log)?)))
    }
}

fn copy(from: &Path, to: &Path, one: fn(&Path, &Path) -> io::Result<()>) -> io::Result<()> {
    fs::create_dir_all(to)?;
    for path in files_below(from)? {
        let new = to.join(
            path.strip_prefix(from)
                .expect("a path below the folder that it was found in"),
        );
        if let Some(folder) = new.parent() {
            fs::create_dir_all(folder)?;
        }
        one(&path, &new)?;
    }
    Ok(())
}

#[cfg(test)]
mod tests {
    use super::*;

    #[test]
    fn a_copy_has_every_file_at_its_path() {
        let room = std::env::temp_dir().join(format!("mutants-copy-{}", std::process::id()));
        fs::create_dir_all(room.join("from/strip/split")).unwrap();
        fs::write(room.join("from/strip/split/Proof.antt"), "split").unwrap();
        fs::write(room.join("from/Lib.antt"), "").unwrap();
        copy(&room.join("from"), &room.join("to"), |a, b| {
            fs::hard_link(a, b)
        })
        .unwrap();
        let text = fs::read_to_string(room.join("to/strip/split/Proof.antt")).unwrap();
        assert_eq!(text, "split");
        assert_eq!(files_below(&room.join("to")).unwrap().len(), 2);
        fs::remove_dir_all(&room).unwrap();
    }
}
