//! What `include/gandhrumil.h` says to a program in C or C++, tried by programs in C and C++ that are compiled against it and linked
//! with the static library. They are compiled by `cc`, which rustc itself links with, and by `c++`.

use std::fs;
use std::path::{Path, PathBuf};
use std::process::Command;

const C: (&str, &[&str]) = ("cc", &["-std=c99"]);
const CPP: (&str, &[&str]) = ("c++", &["-x", "c++", "-std=c++11"]);

fn root() -> PathBuf {
    Path::new(env!("CARGO_MANIFEST_DIR")).join("../..")
}

fn succeed(command: &mut Command) {
    let ended = command.output();
    let output = ended.unwrap_or_else(|error| panic!("{command:?}: {error}"));
    let words = [output.stdout, output.stderr].concat();
    let words = String::from_utf8_lossy(&words);
    let status = output.status;
    assert!(status.success(), "{command:?}: {status}\n{words}");
    print!("{words}");
}

/// Compiles the program `tests/c/NAME.c` without a warning, and runs it. It ends with 0 if all it compares is right.
fn run(name: &str, (compiler, language): (&str, &[&str])) {
    let sources = Path::new(env!("CARGO_MANIFEST_DIR")).join("tests/c");
    let program = Path::new(env!("CARGO_TARGET_TMPDIR")).join(format!("{name}-{compiler}"));
    let mut compile = Command::new(compiler);
    compile.args(language);
    compile.args(["-O2", "-pedantic", "-Wall", "-Wextra", "-Werror"]);
    compile.arg("-I").arg(root().join("include"));
    compile.arg(sources.join(format!("{name}.c")));
    compile.arg(sources.join("floor.c"));
    // The library is no source, in either language.
    compile.args(["-x", "none"]);
    compile.arg(root().join("target/library/libgandhrumil.a"));
    compile.arg("-o").arg(&program);
    succeed(&mut compile);
    succeed(&mut Command::new(program));
}

#[test]
fn a_pointer_may_be_anything_where_its_length_is_0() {
    run("empty", C);
}

#[test]
fn the_seven_calls_from_c() {
    run("figures", C);
}

#[test]
fn the_seven_calls_from_cpp() {
    run("figures", CPP);
}

#[test]
fn no_call_uses_more_stack_than_the_header_says() {
    run("stack", C);
}

/// The number after `words` in the first line of the file that starts with them.
fn first_number(file: &str, words: &str) -> u32 {
    let text = fs::read_to_string(root().join(file)).unwrap();
    let line = text.lines().find_map(|line| line.strip_prefix(words));
    let number = line.unwrap_or_else(|| panic!("{file} has no line with {words}"));
    number.trim_end_matches(';').parse().unwrap()
}

#[test]
fn one_version() {
    let header = first_number("include/gandhrumil.h", "#define GANDHRUMIL_VERSION ");
    assert_eq!(gandhrumil::VERSION, header);
    assert_eq!(first_number("docs/CHANGES.md", "## Version "), header);
}

#[test]
fn one_length_of_places() {
    let header = first_number("include/gandhrumil.h", "#define GANDHRUMIL_PLACES_LEN ");
    assert_eq!(gandhrumil::PLACES_LEN, header as usize);
    let proved = first_number("crates/broken/src/lib.rt", "const SUFFICES: usize = ");
    assert_eq!(proved, header);
}

#[test]
fn one_length_of_schedules() {
    let header = first_number("include/gandhrumil.h", "#define GANDHRUMIL_SCHEDULE_LEN ");
    assert_eq!(gandhrumil::SCHEDULE_LEN, header as usize);
}
