//! What the prover said of a run, read from what it wrote.

use std::collections::BTreeMap;

#[derive(Clone, Copy, Debug, PartialEq, Eq, PartialOrd, Ord)]
pub enum Outcome {
    /// A fact is not proved.
    Refused,
    /// The front end rejects it: a type, a name, a borrow.
    NoProgram,
    /// The first error says only that the proof file no longer fits the code.
    Misfit,
    /// The prover ended without a verdict.
    Untold,
    /// The crate is proved with it.
    Survived,
}

pub const OUTCOMES: [Outcome; 5] = [
    Outcome::Refused,
    Outcome::NoProgram,
    Outcome::Misfit,
    Outcome::Untold,
    Outcome::Survived,
];

impl Outcome {
    pub fn word(self) -> &'static str {
        match self {
            Outcome::Refused => "REFUSED",
            Outcome::NoProgram => "NO PROGRAM",
            Outcome::Misfit => "MISFIT",
            Outcome::Untold => "UNTOLD",
            Outcome::Survived => "SURVIVED",
        }
    }

    pub fn read(word: &str) -> Option<Self> {
        OUTCOMES.into_iter().find(|outcome| outcome.word() == word)
    }
}

/// One run's output.
pub struct Said {
    lines: Vec<String>,
    functions: BTreeMap<String, String>,
}

impl Said {
    pub fn new(output: &str) -> Self {
        let lines: Vec<String> = output.lines().map(str::to_string).collect();
        let state = |line: &String| {
            let (name, state) = line.strip_prefix("fn ")?.split_once(": ")?;
            Some((name.to_string(), state.to_string()))
        };
        let functions = lines.iter().filter_map(state).collect();
        Self { lines, functions }
    }

    /// The lines of a file that the front end rejects, where it stopped the run.
    pub fn rejected(&self) -> Vec<(String, usize)> {
        self.lines
            .iter()
            .filter(|line| line.contains(": error["))
            .filter_map(|line| place(line))
            .collect()
    }

    /// Did the run get as far as the prover?
    pub fn reached_the_prover(&self) -> bool {
        !self.functions.is_empty()
    }

    pub fn proved(&self) -> bool {
        self.lines
            .iter()
            .any(|line| line.starts_with("logic=proved"))
    }

    fn not_proved(&self) -> bool {
        self.lines
            .iter()
            .any(|line| line.starts_with("logic=not-proved"))
    }

    /// Of the crate as a whole.
    pub fn whole(&self) -> Outcome {
        if self.proved() {
            return Outcome::Survived;
        }
        if !self.reached_the_prover() {
            return if self.rejected().is_empty() {
                Outcome::Untold
            } else {
                Outcome::NoProgram
            };
        }
        if !self.not_proved() {
            return Outcome::Untold;
        }
        first_error(self.lines.iter()).map_or(Outcome::Misfit, |line| why(line))
    }

    /// Of one function: nothing where the output does not tell it.
    pub fn of_function(&self, name: &str) -> Option<Outcome> {
        let state = self.functions.get(name)?;
        if state.starts_with("proved") {
            return Some(Outcome::Survived);
        }
        if state.starts_with("no proof") && state.contains("did not prove") {
            return Some(Outcome::Refused);
        }
        let path: Vec<&str> = name.split("::").skip(1).collect();
        let folder = format!("/proofs/{}/", path.join("/"));
        let own = |line: &&String| place(line).is_some_and(|(path, _)| path.contains(&folder));
        let first = first_error(self.lines.iter().filter(own))?;
        state.starts_with("not proved").then(|| why(first))
    }
}

// "path:line:column: .." at the start of a line.
fn place(line: &str) -> Option<(String, usize)> {
    let mut parts = line.splitn(4, ':');
    let path = parts.next()?;
    let number = parts.next()?.parse().ok()?;
    parts.next()?.parse::<usize>().ok()?;
    Some((path.to_string(), number))
}

fn first_error<'a>(mut lines: impl Iterator<Item = &'a String>) -> Option<&'a String> {
    lines.find(|line| line.contains("error") || line.contains("it is not proved that"))
}

// As the gate judges a must-fail edit.
fn why(line: &str) -> Outcome {
    const MISFITS: [&str; 6] = [
        "that can be named from here",
        "is not in scope",
        "has no field",
        "expected type `goal.",
        "binders, but its type has room for",
        "the two types are `Prim.Unit",
    ];
    if MISFITS.iter().any(|misfit| line.contains(misfit)) {
        Outcome::Misfit
    } else {
        Outcome::Refused
    }
}

#[cfg(test)]
mod tests {
    use super::*;

    const RUN: &str = "/w/proofs/strip/split/Proof.antt:22:11: error: `split_spec`: list the missing equation
/w/proofs/strip/share/Answers.antt:15:11: error: `x` is not in scope
note: /w/src/strip.rt:13:6: it is not proved that the subtraction does not go below 0
fn strips::strip::part: proved
fn strips::strip::split: not proved
fn strips::strip::share: not proved
fn strips::strip::plus_floor: no proof: expected answers in /w/proofs/strip/plus_floor/Answers.antt; `search` did not prove `returns`
fn strips::strip::divided: no proof: it calls `strips::strip::split`, which is not proved
logic=not-proved
";

    fn of(name: &str) -> Option<Outcome> {
        Said::new(RUN).of_function(&format!("strips::strip::{name}"))
    }

    #[test]
    fn each_function_has_its_own_outcome() {
        assert_eq!(of("part"), Some(Outcome::Survived));
        assert_eq!(of("split"), Some(Outcome::Refused));
        assert_eq!(of("share"), Some(Outcome::Misfit));
        assert_eq!(of("plus_floor"), Some(Outcome::Refused));
    }

    #[test]
    fn a_caller_of_what_is_not_proved_tells_nothing() {
        assert_eq!(of("divided"), None);
        assert_eq!(of("absent"), None);
    }

    #[test]
    fn the_whole_goes_by_its_first_error() {
        assert_eq!(Said::new(RUN).whole(), Outcome::Refused);
        assert_eq!(
            Said::new("fn a::b: proved\nlogic=proved functions=1\n").whole(),
            Outcome::Survived
        );
        assert_eq!(
            Said::new("fn a::b: could not tell\nrattle: no verdict\n").whole(),
            Outcome::Untold
        );
    }

    #[test]
    fn the_front_end_names_the_lines() {
        let said = Said::new("/w/src/strip.rt:21:22: error[mismatched-types]: expected `bool`\n");
        assert_eq!(said.rejected(), [("/w/src/strip.rt".to_string(), 21)]);
        assert_eq!(said.whole(), Outcome::NoProgram);
    }

    #[test]
    fn words_are_read_back() {
        for outcome in OUTCOMES {
            assert_eq!(Outcome::read(outcome.word()), Some(outcome));
        }
        assert_eq!(Outcome::read("REFUSE"), None);
    }
}
