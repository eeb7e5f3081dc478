//! A program under test, run with bytes on its standard input.

use std::io::{ErrorKind, Write};
use std::path::{Path, PathBuf};
use std::process::{Command, Stdio};
use std::thread;

/// The script beside host that runs a program which is built there. The program must be built.
pub fn run_script(name: &str) -> PathBuf {
    let root = Path::new(env!("CARGO_MANIFEST_DIR")).join("../..");
    let program = root.join("crates").join(name).join("out").join(name);
    assert!(
        program.is_file(),
        "no program at {}: `rt run` in crates/{name} builds it",
        program.display()
    );
    root.join("run")
}

/// What the program prints, and it must end with status 0. It may stop reading once it knows what to
/// print, and print before it has read all.
pub fn printed(name: &str, stdin: &[u8]) -> String {
    let mut child = Command::new(run_script(name))
        .arg(name)
        .stdin(Stdio::piped())
        .stdout(Stdio::piped())
        .spawn()
        .unwrap_or_else(|error| panic!("{name}: {error}"));
    let mut pipe = child.stdin.take().unwrap();
    let output = thread::scope(|scope| {
        // The pipe is closed where the thread ends.
        scope.spawn(move || match pipe.write_all(stdin) {
            Err(error) if error.kind() != ErrorKind::BrokenPipe => panic!("{error}"),
            _ => (),
        });
        child.wait_with_output().unwrap()
    });
    assert!(output.status.success(), "{name}: {}", output.status);
    String::from_utf8(output.stdout).unwrap()
}

/// The first line that differs and in it the first word, both counted from 1.
pub fn first_difference(expected: &str, printed: &str) -> Option<String> {
    let (mut expected_lines, mut printed_lines) = (expected.split('\n'), printed.split('\n'));
    for line in 1.. {
        let words = match (expected_lines.next(), printed_lines.next()) {
            (None, None) => return None,
            (Some(expected), Some(printed)) if expected == printed => continue,
            (expected, printed) => differing_words(expected, printed),
        };
        return Some(format!("line {line}, {words}"));
    }
    None
}

fn differing_words(expected: Option<&str>, printed: Option<&str>) -> String {
    let (Some(expected), Some(printed)) = (expected, printed) else {
        return "which only one of the two has".to_string();
    };
    let (mut expected, mut printed) = (expected.split(' '), printed.split(' '));
    let mut word = 1;
    loop {
        match (expected.next(), printed.next()) {
            (one, other) if one == other => word += 1,
            (one, other) => return format!("word {word}: {other:?} where {one:?} is right"),
        }
    }
}

#[cfg(test)]
mod tests {
    use super::first_difference;

    /// Right lines, then lines that are wrong, missing, cut short or too many.
    #[test]
    fn a_wrong_line_is_found() {
        let found = |printed| first_difference("0 484\n12 0\n", printed).unwrap_or_default();
        assert_eq!(found("0 484\n12 0\n"), "");
        for (printed, words) in [
            ("", "line 1, word 1: "),
            ("0 485\n12 0\n", "line 1, word 2: "),
            ("0 484\n0 0\n", "line 2, word 1: "),
            ("0 484\n12\n", "line 2, word 2: "),
            ("0 484\n12 0", "line 3, which only one of the two has"),
            ("0 484\n12 0\n\n", "line 4, which only one of the two has"),
        ] {
            assert!(found(printed).starts_with(words), "{}", found(printed));
        }
    }
}
