//! Writing to a file, to standard output and to standard error.

use std::ffi::OsStr;
use std::fs;
use std::io::{self, ErrorKind, IsTerminal, Write};

/// To standard output. A reader that has seen enough and left is no trouble.
pub fn print(bytes: &[u8]) -> Result<(), String> {
    let mut stdout = io::stdout().lock();
    match stdout.write_all(bytes).and_then(|()| stdout.flush()) {
        Err(error) if error.kind() != ErrorKind::BrokenPipe => {
            Err(format!("cannot write to standard output: {error}"))
        }
        _ => Ok(()),
    }
}

/// To the file that is named, or to standard output: `-`, or none named.
pub fn write(path: Option<&OsStr>, bytes: &[u8]) -> Result<(), String> {
    match path {
        Some(path) if path != "-" => fs::write(path, bytes)
            .map_err(|error| format!("cannot write {}: {error}", path.to_string_lossy())),
        _ => print(bytes),
    }
}

/// A fault where such a file, which the option names, would go to a terminal.
pub fn no_terminal(path: Option<&OsStr>, such: &str, option: &str) -> Result<(), String> {
    if path.is_none_or(|path| path == "-") && io::stdout().is_terminal() {
        return Err(format!(
            "{such} is bytes and no sight for a terminal: expected {option} and a file's name, or a pipe"
        ));
    }
    Ok(())
}

/// To standard error, where standard output is taken. No trouble if nobody listens.
pub fn remark(bytes: &[u8]) -> Result<(), String> {
    let _ = io::stderr().write_all(bytes);
    Ok(())
}

/// To standard error, if anybody listens.
pub fn complain(words: &str) {
    let _ = writeln!(io::stderr(), "slab: {words}");
}
