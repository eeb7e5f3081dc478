//! The mutants of a crate, tried one batch after another.

use crate::catalogue::{files_below, Catalogue, Mutant};
use crate::kept::{sum, Kept};
use crate::kit::{Kit, Listed};
use crate::outcome::{Outcome, Said, OUTCOMES};
use crate::prover::Prover;
use crate::twins::Twin;
use std::fs;
use std::io;
use std::path::Path;

// How many twins one run tries.
const TOGETHER: usize = 60;

/// The mutants of a crate, one to a line.
pub fn list(repository: &Path, name: &str) -> io::Result<Vec<String>> {
    let all = Catalogue::read(&repository.join("crates"), name)?;
    Ok(all.mutants.iter().map(|mutant| all.label(mutant)).collect())
}

/// Tries all that have no outcome yet; the answer is the crate's line of numbers.
pub fn try_all(
    kit: &Kit,
    repository: &Path,
    list: &[Listed],
    own: &Listed,
) -> Result<String, String> {
    let name = own.name.as_str();
    let io = |trouble: io::Error| format!("{name}: {trouble}");
    let all = Catalogue::read(&repository.join("crates"), name).map_err(io)?;
    let results = repository.join("target/mutants");
    fs::create_dir_all(&results).map_err(io)?;
    let sum = crate_sum(&repository.join("crates").join(name)).map_err(io)?;
    let kept = Kept::open(&results.join(format!("{name}.txt")), sum).map_err(io)?;
    let mut run = Run {
        all: &all,
        kept,
        lone: vec![false; all.mutants.len()],
    };
    if !run.waiting().is_empty() {
        let prover = Prover::start(kit, repository, list, own)?;
        run.control(&prover).map_err(io)?;
        run.until_done(&prover).map_err(io)?;
    }
    Ok(run.summary(name))
}

fn crate_sum(folder: &Path) -> io::Result<u64> {
    let mut parts = Vec::new();
    for part in ["src", "specs", "proofs"].map(|part| folder.join(part)) {
        for path in if part.is_dir() {
            files_below(&part)?
        } else {
            Vec::new()
        } {
            parts.push(
                path.strip_prefix(folder)
                    .unwrap_or(&path)
                    .to_string_lossy()
                    .into_owned()
                    .into_bytes(),
            );
            parts.push(fs::read(&path)?);
        }
    }
    Ok(sum(parts.iter().map(Vec::as_slice)))
}

struct Run<'a> {
    all: &'a Catalogue,
    kept: Kept,
    // Those of which a twin told nothing, or survived.
    lone: Vec<bool>,
}

impl Run<'_> {
    fn waiting(&self) -> Vec<usize> {
        let no_outcome = |&m: &usize| !self.kept.outcomes.contains_key(&self.label(m));
        (0..self.all.mutants.len()).filter(no_outcome).collect()
    }

    fn label(&self, m: usize) -> String {
        self.all.label(&self.all.mutants[m])
    }

    fn keep(&mut self, m: usize, outcome: Outcome) -> io::Result<()> {
        println!("{}\t{}", outcome.word(), self.label(m));
        self.kept.keep(&self.label(m), outcome)
    }

    // Constants have no twins, and what a twin did not tell is tried in its place; both come last.
    fn until_done(&mut self, prover: &Prover) -> io::Result<()> {
        loop {
            let waiting = self.waiting();
            let lone = |&&m: &&usize| self.lone[m] || self.all.item(&self.all.mutants[m]).constant;
            let (lone, others): (Vec<usize>, Vec<usize>) = waiting.iter().partition(lone);
            match (others.as_slice(), lone.as_slice()) {
                ([], []) => return Ok(()),
                ([], [m, ..]) => self.try_one(prover, *m)?,
                (others, _) => self.try_twins(prover, &others[..others.len().min(TOGETHER)])?,
            }
        }
    }

    // A twin in which nothing is changed must be proved; where it is not, the mutants of that function are tried in their place.
    fn control(&mut self, prover: &Prover) -> io::Result<()> {
        let waiting = self.waiting();
        let constant = |m: usize| self.all.item(&self.all.mutants[m]).constant;
        let functions: Vec<usize> = waiting.iter().copied().filter(|&m| !constant(m)).collect();
        let controls = self.all.controls(&functions);
        let (said, twins) = prover.twins(self.all, &controls.iter().collect::<Vec<_>>())?;
        for (control, twin) in controls.iter().zip(twins) {
            if self.told(&said, &twin) != Some(Outcome::Survived) {
                println!("in its place: {}", self.all.item(control).name);
                for &m in &functions {
                    let mutant = &self.all.mutants[m];
                    let same = (mutant.source, mutant.item) == (control.source, control.item);
                    self.lone[m] = self.lone[m] || same;
                }
            }
        }
        Ok(())
    }

    fn try_twins(&mut self, prover: &Prover, chosen: &[usize]) -> io::Result<()> {
        let mutants: Vec<&Mutant> = chosen.iter().map(|&m| &self.all.mutants[m]).collect();
        let (said, twins) = prover.twins(self.all, &mutants)?;
        let told: Vec<_> = twins.iter().map(|twin| self.told(&said, twin)).collect();
        let rejected = told.contains(&Some(Outcome::NoProgram));
        for (&m, outcome) in chosen.iter().zip(told) {
            match outcome {
                Some(Outcome::Survived) | None => self.lone[m] = !rejected,
                Some(outcome) => self.keep(m, outcome)?,
            }
        }
        Ok(())
    }

    // Where the front end stopped a run, it names lines of the twins that it rejects, and the others are tried again.
    fn told(&self, said: &Said, twin: &Twin) -> Option<Outcome> {
        if said.reached_the_prover() {
            return said.of_function(&twin.name);
        }
        let file = format!("/src/{}", self.all.sources[twin.source].path.display());
        let lines = twin.lines.0..=twin.lines.1;
        let rejected = said.rejected();
        let mut own = rejected
            .iter()
            .filter(|(path, n)| path.ends_with(&file) && lines.contains(n));
        own.next().map(|_| Outcome::NoProgram)
    }

    fn try_one(&mut self, prover: &Prover, m: usize) -> io::Result<()> {
        let mutant = &self.all.mutants[m];
        let mut outcome = self.of_one(&prover.alone(self.all, mutant)?, mutant);
        if matches!(outcome, Outcome::Survived | Outcome::Untold) {
            outcome = self.of_one(&prover.wholly(self.all, mutant)?, mutant);
        }
        self.keep(m, outcome)
    }

    // By the first error of its own function; a constant's, by the first of all.
    fn of_one(&self, said: &Said, mutant: &Mutant) -> Outcome {
        match said.of_function(&self.all.item(mutant).name) {
            Some(outcome) if outcome != Outcome::Survived => outcome,
            _ => said.whole(),
        }
    }

    fn summary(&self, name: &str) -> String {
        let labels = (0..self.all.mutants.len()).map(|m| self.label(m));
        let found: Vec<Option<&Outcome>> =
            labels.map(|label| self.kept.outcomes.get(&label)).collect();
        let count = |outcome: Outcome| {
            let number = found.iter().filter(|&&one| one == Some(&outcome)).count();
            format!("{number} {}", outcome.word().to_lowercase())
        };
        let counts: Vec<String> = OUTCOMES.into_iter().map(count).collect();
        format!(
            "{name}: {} mutants: {}",
            self.all.mutants.len(),
            counts.join(", ")
        )
    }
}
