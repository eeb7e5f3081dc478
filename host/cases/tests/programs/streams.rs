//! The printing program's standard streams: input of any length and in any pieces, and streams that fail. A
//! failure ends with a status that is not 0 and a word on standard error, never with a sheet cut off in silence.

use cases::garage::garage;
use cases::program::{printed, run_script};
use reference::sheet::sheet;
use std::fs::File;
use std::io::Write;
use std::process::{Child, Command, Output, Stdio};
use std::thread::sleep;
use std::time::Duration;

fn start(stdin: Stdio, stdout: Stdio) -> Child {
    Command::new(run_script("print"))
        .arg("print")
        .stdin(stdin)
        .stdout(stdout)
        .stderr(Stdio::piped())
        .spawn()
        .expect("the script ./run")
}

fn ended(stdin: Stdio, stdout: Stdio) -> Output {
    start(stdin, stdout).wait_with_output().unwrap()
}

/// The garage's bytes, cut or followed by zeros.
fn garage_of(length: usize) -> Vec<u8> {
    let mut bytes = garage().bytes();
    bytes.resize(length, 0);
    bytes
}

fn example() -> Stdio {
    let path = concat!(env!("CARGO_MANIFEST_DIR"), "/../../example/garage.floor");
    File::open(path).expect("example/garage.floor").into()
}

fn full() -> Stdio {
    let device = File::options().write(true).open("/dev/full");
    device.expect("/dev/full").into()
}

/// It failed, and its first word on standard error names the program and the stream.
fn assert_failed(output: &Output, words: &str) {
    let said = String::from_utf8_lossy(&output.stderr);
    assert_eq!(output.status.code(), Some(1), "{said}");
    assert!(said.starts_with(words), "{said:?}");
    assert_eq!(said.lines().count(), 1, "{said:?}");
}

#[test]
fn input_of_every_length_about_the_longest_that_is_kept() {
    for length in [
        0, 1, 15, 16, 3_568, 3_583, 3_584, 3_585, 3_599, 3_600, 3_601,
    ] {
        let bytes = garage_of(length);
        assert_eq!(printed("print", &bytes), sheet(&bytes), "{length} bytes");
    }
}

/// Refused 3 for its records, 1 for its length, 2 for its sizes.
#[test]
fn input_of_ten_megabytes() {
    let whole = garage_of(10_000_000);
    assert_eq!(printed("print", &whole), "3 255\n");
    assert_eq!(printed("print", &whole[..9_999_999]), "1 255\n");
    assert_eq!(printed("print", &vec![0; 10_000_000]), "2 255\n");
}

/// A pipe hands on what is there: a floor, and longer inputs, come in several reads.
#[test]
fn input_in_pieces() {
    for (length, piece) in [(garage().bytes().len(), 100), (3_600, 700), (7_205, 3_590)] {
        let bytes = garage_of(length);
        let mut child = start(Stdio::piped(), Stdio::piped());
        let mut pipe = child.stdin.take().unwrap();
        for part in bytes.chunks(piece) {
            pipe.write_all(part).unwrap();
            sleep(Duration::from_millis(20));
        }
        drop(pipe);
        let output = child.wait_with_output().unwrap();
        assert!(output.status.success(), "{}", output.status);
        let printed = String::from_utf8(output.stdout).unwrap();
        assert_eq!(printed, sheet(&bytes), "{length} bytes by {piece}");
    }
}

#[test]
fn empty_input_is_a_floor_file_refused() {
    assert_eq!(printed("print", &[]), "1 255\n");
}

#[test]
fn a_directory_cannot_be_read() {
    let directory = File::open("/").expect("a directory");
    let output = ended(directory.into(), Stdio::piped());
    assert_failed(&output, "print: standard input");
    assert_eq!(output.stdout, b"");
}

#[test]
fn closed_input_cannot_be_read() {
    let output = Command::new("sh")
        .args(["-c", "exec \"$0\" print <&-"])
        .arg(run_script("print"))
        .output()
        .unwrap();
    assert_failed(&output, "print: standard input");
    assert_eq!(output.stdout, b"");
}

/// The first line alone, and a whole sheet.
#[test]
fn a_full_device_cannot_be_written() {
    assert_failed(&ended(Stdio::null(), full()), "print: standard output");
    assert_failed(&ended(example(), full()), "print: standard output");
}

#[test]
fn closed_output_cannot_be_written() {
    let output = Command::new("sh")
        .args(["-c", "exec \"$0\" print >&-"])
        .arg(run_script("print"))
        .stdin(example())
        .output()
        .unwrap();
    assert_failed(&output, "print: standard output");
}

/// The reader is gone before the floor comes: the system ends the program, and that is said.
#[test]
fn a_pipe_without_a_reader_is_a_failure() {
    let mut child = start(Stdio::piped(), Stdio::piped());
    drop(child.stdout.take());
    let mut pipe = child.stdin.take().unwrap();
    pipe.write_all(&garage().bytes()).unwrap();
    drop(pipe);
    let output = child.wait_with_output().unwrap();
    assert!(!output.status.success());
    let said = String::from_utf8_lossy(&output.stderr);
    assert!(said.contains("print: "), "{said:?}");
}

#[test]
fn the_script_sheet_passes_a_failure_on() {
    let output = Command::new(run_script("print").with_file_name("sheet"))
        .stdout(full())
        .output()
        .unwrap();
    assert_failed(&output, "print: standard output");
}
