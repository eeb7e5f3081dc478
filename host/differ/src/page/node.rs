//! A node that answers calls over its standard input and output.

use super::frame::{head, Asked, Given, HEAD_BYTES};
use gandhrumil::Answer;
use std::io::{self, Read, Write};
use std::path::Path;
use std::process::{Child, ChildStdin, ChildStdout, Command, Stdio};

const NODE: &str = "node";
const MODULE: &str = concat!(
    env!("CARGO_MANIFEST_DIR"),
    "/../../target/page/gandhrumil.wasm"
);

/// Why the page's library cannot be called.
#[derive(Clone, Copy, Debug, PartialEq, Eq)]
pub enum Lacking {
    Node,
    Module,
}

impl Lacking {
    pub fn words(self) -> &'static str {
        match self {
            Lacking::Node => "there is no node on this machine",
            Lacking::Module => "there is no target/page/gandhrumil.wasm: run ./page first",
        }
    }
}

pub fn lacking() -> Option<Lacking> {
    lacking_of(NODE, Path::new(MODULE))
}

/// Where node is lacking a test says so, past what cargo test holds back, and passes; the module must be there.
pub fn can_be_tried() -> bool {
    match lacking() {
        None => true,
        Some(Lacking::Node) => {
            let words = Lacking::Node.words();
            let _ = writeln!(io::stderr(), "{words}: the page's library was not tried");
            false
        }
        Some(Lacking::Module) => panic!("{}", Lacking::Module.words()),
    }
}

fn lacking_of(node: &str, module: &Path) -> Option<Lacking> {
    let version = Command::new(node).arg("--version").output();
    match version.is_ok_and(|printed| printed.status.success()) {
        false => Some(Lacking::Node),
        true if !module.is_file() => Some(Lacking::Module),
        true => None,
    }
}

pub struct Node {
    child: Child,
    stdin: ChildStdin,
    stdout: ChildStdout,
    /// How many frames it was given.
    asked: u32,
    frame: Vec<u8>,
    lent: Vec<u8>,
}

impl Node {
    pub fn new(script: &str, words: &[&str]) -> Node {
        let mut command = Command::new(NODE);
        command.arg(script).arg(MODULE).args(words);
        command.stdin(Stdio::piped());
        command.stdout(Stdio::piped());
        command.stderr(Stdio::piped());
        let mut child = command.spawn().expect("node, which answers the calls");
        let (stdin, stdout) = (child.stdin.take(), child.stdout.take());
        Node {
            child,
            stdin: stdin.expect("a pipe"),
            stdout: stdout.expect("a pipe"),
            asked: 0,
            frame: Vec::new(),
            lent: Vec::new(),
        }
    }

    /// Panics, with node's own last words, where node does not answer as it should.
    pub fn ask(&mut self, asked: &Asked) -> Given<'_> {
        self.asked = self.asked.wrapping_add(1);
        asked.write(self.asked, &mut self.frame);
        self.lent.resize(asked.lent_bytes(), 0);
        match self.exchange() {
            Ok(answer) => Given {
                answer,
                lent: &self.lent,
            },
            Err(why) => panic!("the page's library: {why}\n{}{asked}", self.last_words()),
        }
    }

    fn exchange(&mut self) -> Result<Answer, String> {
        let ended = |error: io::Error| format!("node does not answer: {error}");
        self.stdin.write_all(&self.frame).map_err(ended)?;
        let mut bytes = [0; HEAD_BYTES];
        self.stdout.read_exact(&mut bytes).map_err(ended)?;
        let [number, length, refusal, value] = head(bytes);
        if number != self.asked {
            return Err(format!(
                "frame {} gets the answer of frame {number}",
                self.asked
            ));
        }
        if length as usize != self.lent.len() {
            let right = self.lent.len();
            return Err(format!("{right} bytes were lent and {length} come back"));
        }
        self.stdout.read_exact(&mut self.lent).map_err(ended)?;
        Ok(Answer { refusal, value })
    }

    fn last_words(&mut self) -> String {
        self.end();
        let mut words = String::new();
        let stderr = self.child.stderr.as_mut().expect("a pipe");
        match stderr.read_to_string(&mut words) {
            Ok(_) => words,
            Err(error) => format!("node's words cannot be read: {error}\n"),
        }
    }

    /// Each answer is complete, and nothing is lost by the end of a node that awaits the next frame. One that has
    /// ended before cannot be killed.
    fn end(&mut self) {
        let _ = self.child.kill();
        let _ = self.child.wait();
    }
}

impl Drop for Node {
    fn drop(&mut self) {
        self.end();
    }
}

#[cfg(test)]
mod tests {
    use super::*;

    const THERE: &str = concat!(env!("CARGO_MANIFEST_DIR"), "/Cargo.toml");

    /// A program that is surely there stands for node.
    #[test]
    fn what_is_lacking_is_said() {
        let cargo = env!("CARGO");
        let nowhere = Path::new("/nowhere/gandhrumil.wasm");
        assert_eq!(lacking_of(cargo, Path::new(THERE)), None);
        assert_eq!(lacking_of("/nowhere/node", nowhere), Some(Lacking::Node));
        let module = lacking_of(cargo, nowhere).unwrap();
        assert!(module.words().ends_with("run ./page first"));
    }
}
