//! Inputs that are hard to read, and outputs that nobody reads.

use crate::run::{command, root, scratch, slab, slab_on};
use std::fs::{self, File};
use std::process::Stdio;

#[test]
fn an_empty_file() {
    let path = scratch("empty");
    fs::write(&path, b"").unwrap();
    let path = path.to_str().unwrap();
    let check = slab(&["check", path]);
    assert_eq!(check.status, 2);
    assert!(check.words().contains("refused 1: "), "{}", check.words());
    assert_eq!(slab(&["text", path]).status, 2);
    let make = slab(&["make", path]);
    assert_eq!((make.status, make.stdout.len()), (3, 0));
    assert!(
        make.stderr
            .contains("line 1: expected `slab` before the text ends"),
        "{}",
        make.stderr
    );
}

#[test]
fn a_directory_and_nothing_at_all() {
    for path in [root("example"), root("example/no.floor")] {
        for name in ["check", "clear", "text", "make", "sheet"] {
            let ran = slab(&[name, path.to_str().unwrap()]);
            assert_eq!((ran.status, ran.stdout.len()), (3, 0));
            assert!(
                ran.stderr.starts_with("slab: cannot read "),
                "{}",
                ran.stderr
            );
        }
    }
}

#[test]
fn an_output_that_cannot_be_written() {
    let (folder, floor) = (root("example"), root("example/garage.floor"));
    let ran = slab(&[
        "text",
        floor.to_str().unwrap(),
        "-o",
        folder.to_str().unwrap(),
    ]);
    assert_eq!(ran.status, 3);
    assert!(
        ran.stderr.starts_with("slab: cannot write "),
        "{}",
        ran.stderr
    );
}

/// Files with a hole of 100 MB: by their length and their first record refused 1, 2 or 3.
#[test]
fn a_huge_file() {
    let garage = fs::read(root("example/garage.floor")).unwrap();
    for (head, length, refused) in [
        (&garage[..], 100_000_000, 3),
        (&garage[..], 100_000_001, 1),
        (&garage[16..], 100_000_000, 2),
    ] {
        let path = scratch(&format!("huge {refused}"));
        fs::write(&path, head).unwrap();
        let file = File::options().write(true).open(&path).unwrap();
        file.set_len(length).unwrap();
        let path = path.to_str().unwrap();
        let check = slab(&["check", path]);
        assert_eq!(check.status, 2);
        assert!(
            check.words().contains(&format!("refused {refused}: ")),
            "{}",
            check.words()
        );
        let clear = slab(&["clear", path]);
        assert_eq!(clear.status, 2);
        assert!(
            clear
                .words()
                .contains(&format!(": no, refused {refused}: ")),
            "{}",
            clear.words()
        );
        for words in [
            &["text", path][..],
            &["sheet", path],
            &["change", path, "dead 7200"],
        ] {
            assert_eq!(slab(words).status, 2, "{words:?}");
        }
        let make = slab(&["make", path]);
        assert_eq!(make.status, 3);
        assert!(make
            .stderr
            .contains(&format!("has {length} bytes: expected a text of at most")));
        fs::remove_file(path).unwrap();
    }
}

/// The faults of a floor file that is taken for a text are no flood.
#[test]
fn a_floor_file_in_place_of_a_text() {
    let newlines = [&[1, 0, 0, 0][..], &b"\n?".repeat(1_000)].concat();
    let ran = slab_on(&["make", "-"], &newlines);
    assert_eq!(ran.status, 3);
    assert!(ran
        .stderr
        .contains("line 1: expected words and numbers, found bytes that are no text"));
    assert!(
        ran.stderr.lines().count() < 30 && ran.stderr.contains("and 990 more"),
        "{}",
        ran.stderr
    );
}

/// The reader has left before a word is written.
#[test]
fn broken_pipes() {
    let (floor, text) = (root("example/garage.floor"), root("example/garage.txt"));
    let (floor, text) = (floor.to_str().unwrap(), text.to_str().unwrap());
    for words in [
        &["check", floor][..],
        &["clear", floor],
        &["sheet", floor],
        &["change", floor, "dead 7200"],
        &["text", floor],
        &["make", text],
        &["help", "check"],
    ] {
        let mut child = command(words)
            .stdin(Stdio::null())
            .stdout(gone())
            .stderr(gone())
            .spawn()
            .unwrap();
        assert_eq!(child.wait().unwrap().code(), Some(0), "{words:?}");
    }
    let mut child = command(&["chek"]).stderr(gone()).spawn().unwrap();
    assert_eq!(child.wait().unwrap().code(), Some(3));
}

/// The writing end of a pipe that nobody reads.
fn gone() -> Stdio {
    let (_, writer) = std::io::pipe().unwrap();
    writer.into()
}
