//! Bytes from a file or from standard input, of any length, with no more of them kept than something can be made of.

use floor::RECORD_BYTES;
use std::ffi::OsStr;
use std::fs::File;
use std::io::{self, Read};

/// More than any floor file that can be laid out: 65,536 columns in a row make 3,145,792 bytes.
const MOST_KEPT: usize = 8 << 20;

pub struct Input {
    /// What to call it in a sentence.
    pub name: String,
    head: Vec<u8>,
    length: u64,
}

impl Input {
    /// `-` is standard input.
    pub fn read(path: &OsStr) -> Result<Input, String> {
        let (name, read) = if path == "-" {
            ("standard input".to_string(), keep(io::stdin().lock()))
        } else {
            (
                path.to_string_lossy().into_owned(),
                File::open(path).and_then(keep),
            )
        };
        match read {
            Ok((head, length)) => Ok(Input { name, head, length }),
            Err(error) => Err(format!("cannot read {name}: {error}")),
        }
    }

    /// How many bytes were there, kept or not.
    pub fn length(&self) -> u64 {
        self.length
    }

    /// The bytes to judge as a floor file. Of what is longer than any floor, 1, 2 or 3 is refused by the length modulo 16 and the first record
    /// alone (`crates/print/proofs`: `long_alike`): a shorter piece with the same two stands for it.
    pub fn floor(&self) -> &[u8] {
        if self.length == self.head.len() as u64 {
            return &self.head;
        }
        let over = (self.length % RECORD_BYTES as u64) as usize;
        &self.head[..MOST_KEPT - RECORD_BYTES + over]
    }

    /// The bytes to read as text.
    pub fn text(&self) -> Result<&[u8], String> {
        if self.length == self.head.len() as u64 {
            return Ok(&self.head);
        }
        let (name, length) = (&self.name, self.length);
        Err(format!(
            "{name} has {length} bytes: expected a text of at most {MOST_KEPT}"
        ))
    }

    /// Every floor of right form begins with the bytes 1 0 0 0, and no text has such bytes.
    pub fn is_text(&self) -> bool {
        let of_text = |&byte: &u8| byte >= b' ' || b"\t\r\n".contains(&byte);
        !self.head.is_empty() && self.head.iter().all(of_text)
    }
}

/// The first bytes, and how many there are in all.
fn keep(mut source: impl Read) -> io::Result<(Vec<u8>, u64)> {
    let mut head = Vec::new();
    source
        .by_ref()
        .take(MOST_KEPT as u64)
        .read_to_end(&mut head)?;
    let past = io::copy(&mut source, &mut io::sink())?;
    let length = head.len() as u64 + past;
    Ok((head, length))
}
