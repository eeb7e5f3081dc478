//! The outcomes of a crate's mutants, kept in a file as they are found, so that a run is taken up where it stopped.

use crate::outcome::Outcome;
use std::collections::BTreeMap;
use std::fs::{self, OpenOptions};
use std::io::{self, Write};
use std::path::{Path, PathBuf};

pub struct Kept {
    path: PathBuf,
    pub outcomes: BTreeMap<String, Outcome>,
}

impl Kept {
    /// What the file has for a crate of this sum; of a crate that was changed since, nothing.
    pub fn open(path: &Path, sum: u64) -> io::Result<Self> {
        let first = format!("sum {sum:016x}");
        let text = fs::read_to_string(path).unwrap_or_default();
        let mut lines = text.lines();
        let mut outcomes = BTreeMap::new();
        if lines.next() == Some(&first) {
            outcomes.extend(lines.filter_map(read));
        } else {
            fs::write(path, format!("{first}\n"))?;
        }
        Ok(Self {
            path: path.to_path_buf(),
            outcomes,
        })
    }

    pub fn keep(&mut self, label: &str, outcome: Outcome) -> io::Result<()> {
        let mut file = OpenOptions::new().append(true).open(&self.path)?;
        writeln!(file, "{}\t{label}", outcome.word())?;
        self.outcomes.insert(label.to_string(), outcome);
        Ok(())
    }
}

fn read(line: &str) -> Option<(String, Outcome)> {
    let (word, label) = line.split_once('\t')?;
    Some((label.to_string(), Outcome::read(word)?))
}

/// A sum over names and contents (FNV-1a).
pub fn sum<'a>(parts: impl Iterator<Item = &'a [u8]>) -> u64 {
    let mut sum: u64 = 0xcbf2_9ce4_8422_2325;
    for part in parts {
        for byte in part.iter().copied().chain([0xff]) {
            sum = (sum ^ u64::from(byte)).wrapping_mul(0x0100_0000_01b3);
        }
    }
    sum
}

#[cfg(test)]
mod tests {
    use super::*;

    #[test]
    fn what_was_kept_is_read_back_while_the_crate_is_the_same() {
        let path = std::env::temp_dir().join(format!("mutants-kept-{}", std::process::id()));
        let mut kept = Kept::open(&path, 1).unwrap();
        kept.keep("src/lib.rt:1:2\tnumber\t1 -> 2", Outcome::Refused)
            .unwrap();
        let again = Kept::open(&path, 1).unwrap();
        assert_eq!(again.outcomes, kept.outcomes);
        assert_eq!(again.outcomes.len(), 1);
        let changed = Kept::open(&path, 2).unwrap();
        assert!(changed.outcomes.is_empty());
        fs::remove_file(&path).unwrap();
    }

    #[test]
    fn sums_tell_parts_apart() {
        let one = sum([b"ab".as_slice(), b"c"].into_iter());
        let two = sum([b"a".as_slice(), b"bc"].into_iter());
        assert_ne!(one, two);
    }
}
