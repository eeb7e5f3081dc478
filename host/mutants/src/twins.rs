//! Mutants as functions of their own beside the ones that they are made from, so that one run of the prover tries many and no caller sees any.

use crate::catalogue::{Catalogue, Mutant};
use crate::change::Kind;
use std::path::PathBuf;

/// A changed function under a name of its own: `split_mutant3` for a mutant of `split`.
pub struct Twin {
    pub name: String,
    pub source: usize,
    /// Its first and last line in the file that it was added to.
    pub lines: (usize, usize),
    original: String,
    // Of a mutant that calls another function: the name that its proof has for the one, and for the other.
    callees: Option<(String, String)>,
}

/// Every file of the crate with the twins of some mutants after its own text, and the twins in the order of the mutants.
pub fn added(all: &Catalogue, mutants: &[&Mutant]) -> (Vec<String>, Vec<Twin>) {
    let mut texts: Vec<String> = all.sources.iter().map(|s| s.file.source.clone()).collect();
    let mut twins = Vec::new();
    for (number, mutant) in mutants.iter().enumerate() {
        let text = &mut texts[mutant.source];
        let first = text.matches('\n').count() + 2;
        text.push('\n');
        text.push_str(&written(all, mutant, number));
        let original = all.item(mutant).name.clone();
        twins.push(Twin {
            name: format!("{original}_mutant{number}"),
            source: mutant.source,
            lines: (first, text.matches('\n').count()),
            original,
            callees: callees(all, mutant),
        });
    }
    (texts, twins)
}

// A method stands in a block of its type.
fn written(all: &Catalogue, mutant: &Mutant, number: usize) -> String {
    let file = &all.sources[mutant.source].file;
    let item = all.item(mutant);
    let from = file.tokens[item.head].from;
    let mut text = file.source[from..file.tokens[item.end - 1].to].to_string();
    let change = &mutant.change;
    text.replace_range(change.from - from..change.to - from, &change.new);
    text.insert_str(
        file.tokens[item.head + 1].to - from,
        &format!("_mutant{number}"),
    );
    match &item.of {
        Some(of) => format!("impl {of} {{\n{text}\n}}\n"),
        None => format!("{text}\n"),
    }
}

impl Twin {
    /// The folder of its proof below `proofs/`, and that of the original's.
    pub fn folders(&self) -> (PathBuf, PathBuf) {
        let folder = |name: &str| name.split("::").skip(1).collect();
        (folder(&self.name), folder(&self.original))
    }

    /// The original's proof, said of the twin.
    pub fn proof(&self, original: &str) -> String {
        let path = |name: &str| {
            let inner: Vec<&str> = name.split("::").skip(1).collect();
            format!(".proofs.{}.", inner.join("."))
        };
        let spec = |name: &str| format!("{}_spec", name.rsplit("::").next().unwrap_or_default());
        let text = original
            .replace(&path(&self.original), &path(&self.name))
            .replace(&spec(&self.original), &spec(&self.name));
        match &self.callees {
            Some((old, new)) => renamed(&text, old, new),
            None => text,
        }
    }
}

fn callees(all: &Catalogue, mutant: &Mutant) -> Option<(String, String)> {
    let change = &mutant.change;
    let old = &all.sources[mutant.source].file.source[change.from..change.to];
    let last = |path: &str| path.rsplit("::").next().unwrap_or_default().to_string();
    (change.kind == Kind::Callee).then(|| (last(old), last(&change.new)))
}

// What a proof knows of a call of `both` is `.both.` and what it must show there `both-requires`.
fn renamed(proof: &str, old: &str, new: &str) -> String {
    let mut text = proof.to_string();
    for (before, after) in [
        (".", "."),
        (".", "-requires"),
        (" ", "-requires"),
        ("\n", "-requires"),
    ] {
        text = text.replace(
            &format!("{before}{old}{after}"),
            &format!("{before}{new}{after}"),
        );
    }
    text
}

#[cfg(test)]
mod tests {
    use super::*;
    use crate::catalogue::Source;
    use crate::declared::Declared;
    use crate::items::File;

    fn catalogue() -> Catalogue {
        let text =
            "pub fn f() {\n    a < b\n}\nimpl Section {\n    fn g_h() {\n        !c\n    }\n}\n";
        let file = File::read("stiffness::section", text.to_string());
        let path = PathBuf::from("section.rt");
        Catalogue::of(vec![Source { path, file }], &Declared::default())
    }

    #[test]
    fn twins_stand_after_the_text() {
        let all = catalogue();
        let (texts, twins) = added(&all, &[&all.mutants[0], &all.mutants[1]]);
        let added = "\nfn f_mutant0() {\n    a <= b\n}\n\nimpl Section {\nfn g_h_mutant1() {\n        c\n    }\n}\n";
        assert_eq!(texts[0], format!("{}{added}", all.sources[0].file.source));
        assert_eq!(twins[0].name, "stiffness::section::f_mutant0");
        assert_eq!(twins[0].lines, (10, 12));
        assert_eq!(twins[1].lines, (14, 18));
    }

    #[test]
    fn a_call_of_another_goes_by_its_name() {
        let proof =
            "pub both-requires : goal.both-requires\nboth-requires c = f c.both.result c.both-2\n";
        let expected = "pub either-requires : goal.either-requires\neither-requires c = f c.either.result c.both-2\n";
        assert_eq!(renamed(proof, "both", "either"), expected);
    }

    #[test]
    fn the_proof_goes_with_its_twin() {
        let all = catalogue();
        let (_, twins) = added(&all, &[&all.mutants[1]]);
        let proof = "use Rattle.stiffness.proofs.section.Section.g_h.Tie as tie\npub g_h_spec : {M : Type 1} → statement M\n";
        let expected = "use Rattle.stiffness.proofs.section.Section.g_h_mutant0.Tie as tie\npub g_h_mutant0_spec : {M : Type 1} → statement M\n";
        assert_eq!(twins[0].proof(proof), expected);
        let (own, original) = twins[0].folders();
        assert_eq!(own, PathBuf::from("section/Section/g_h_mutant0"));
        assert_eq!(original, PathBuf::from("section/Section/g_h"));
    }
}
