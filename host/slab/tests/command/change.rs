//! `change`: what it says after each change, what it writes, and when it writes nothing.

use crate::run::{root, scratch, slab, slab_on, Ran};
use floor::{with, Field, Floor};
use std::fs;
use std::path::Path;

fn garage() -> Vec<u8> {
    fs::read(root("example/garage.floor")).unwrap()
}

fn change(file: &[u8], changes: &[&str]) -> Ran {
    slab_on(&[&["change", "-"], changes].concat(), file)
}

fn change_to(path: &Path, file: &[u8], changes: &[&str]) -> Ran {
    change(file, &[changes, &["-o", path.to_str().unwrap()]].concat())
}

/// What it says, and how it ends; nothing is said on standard error.
fn said(file: &[u8], changes: &[&str]) -> (i32, String) {
    let ran = change(file, changes);
    assert_eq!(ran.stderr, "");
    (ran.status, ran.words().to_string())
}

const MOVED: &str = "\
x span 2 9900: taken, not clear, verdict 64
  64  the slab is thinner than some panel's least thickness
x span 3 4800: taken, not clear, verdict 68
   4  some neighbouring spans in a direction differ by more than a third of the longer
  64  the slab is thinner than some panel's least thickness
";

#[test]
fn the_verdict_after_each() {
    let moved = ["x span 2 9900", "x span 3 4800"];
    assert_eq!(said(&garage(), &moved), (1, MOVED.to_string()));
    let mended = [&moved[..], &["x span 3 7200", "x span 2 7500"]].concat();
    let (status, words) = said(&garage(), &mended);
    assert_eq!(status, 0);
    let after = words.strip_prefix(MOVED).unwrap();
    assert!(after.starts_with("x span 3 7200: taken, not clear, verdict 64\n  64  the slab"));
    assert!(after.ends_with("\nx span 2 7500: taken, clear\n"));
}

/// Each form, on the garage: the floor that is written has the one record changed.
#[test]
fn each_form_of_words() {
    for (words, kind, index, fields) in [
        ("x span 2 7480", 5, 2, [7_480, 0]),
        ("y span 0 6020", 6, 0, [6_020, 0]),
        ("x line 4 beam 420 720", 7, 4, [420, 720]),
        ("y line 5 beam 410 710", 8, 5, [410, 710]),
        ("column 3 1 offset 160 210", 9, 9, [160, 210]),
        ("column 5 4 offset 10 20", 9, 29, [10, 20]),
        ("dead 7000", 3, 0, [7_000, 5_000]),
        ("live 4000", 3, 0, [7_200, 4_000]),
        ("loads 7001 4001", 3, 0, [7_001, 4_001]),
    ] {
        let path = scratch("one record");
        let ran = change_to(&path, &garage(), &[words]);
        assert_eq!(
            (ran.status, ran.words()),
            (0, &format!("{words}: taken, clear\n")[..])
        );
        let right = with(&garage(), kind, index, Field::A, fields[0]);
        let right = match kind {
            5 | 6 => right,
            _ => with(&right, kind, index, Field::B, fields[1]),
        };
        assert_ne!(right, garage());
        assert_eq!(fs::read(&path).unwrap(), right, "{words}");
    }
}

/// A text is taken too, and words as a text has them.
#[test]
fn of_a_text_and_freely_written() {
    let text = fs::read(root("example/garage.txt")).unwrap();
    let (status, words) = said(&text, &["  X Span: 2,\t7480  # wider"]);
    assert_eq!((status, &words[..]), (0, "x span 2 7480: taken, clear\n"));
}

/// "dead or live alone keeps the other as the floor then has it": 14,400 is twice 7,200.
#[test]
fn loads_as_the_floor_then_has_them() {
    let (status, words) = said(
        &garage(),
        &["live 14400", "dead 7199", "live 14398", "loads 7200 14401"],
    );
    let limit = "  16  the live load is more than twice the dead load\n";
    let right = format!(
        "live 14400: taken, clear\ndead 7199: taken, not clear, verdict 16\n{limit}live 14398: taken, clear\n\
         loads 7200 14401: taken, not clear, verdict 16\n{limit}"
    );
    assert_eq!((status, words), (1, right));
}

/// Each number that a change in words can be refused with.
#[test]
fn a_refused_change_and_why() {
    for (words, refused, below) in [
        (
            "x span 2 6610",
            5,
            "  x span 2 of 6610 mm: expected 1000 to 12000, a multiple of 20\n",
        ),
        (
            "dead 999",
            5,
            "  dead 999, live 5000: expected dead 1000 to 30000, live 0 to 50000\n",
        ),
        (
            "y line 1 beam 0 600",
            5,
            "  y line 1 beam 0 600: expected width 150 to 1000 and depth 91 to 1500, or both 0\n",
        ),
        (
            "column 2 1 offset 0 12001",
            5,
            "  column 2 1 offset 0 12001: expected 0 to 12000 each way\n",
        ),
        ("x span 0 1180", 6, ""),
        ("y line 2 beam 0 0", 7, ""),
        ("x line 0 beam 400 200", 7, ""),
        ("x span 5 6000", 9, ""),
    ] {
        let (status, said) = said(&garage(), &[words]);
        let sentences = fs::read_to_string(root("words/refusals.txt")).unwrap();
        let sentence = sentences
            .lines()
            .find_map(|line| line.strip_prefix(&format!("{refused} ")));
        let right = format!("{words}: refused {refused}: {}\n{below}", sentence.unwrap());
        assert_eq!((status, said), (2, right));
    }
}

/// It stops there, with what was taken before said, and neither makes a file nor touches one.
#[test]
fn a_refused_change_writes_nothing() {
    let changes = ["dead 7000", "x span 2 6610", "live 4000"];
    let path = scratch("never made");
    let ran = change_to(&path, &garage(), &changes);
    assert_eq!((ran.status, &ran.stderr[..]), (2, ""));
    assert!(ran
        .words()
        .starts_with("dead 7000: taken, clear\nx span 2 6610: refused 5: "));
    assert!(!ran.words().contains("live 4000"));
    assert!(!path.exists());
    fs::write(&path, b"kept").unwrap();
    assert_eq!(change_to(&path, &garage(), &changes).status, 2);
    assert_eq!(fs::read(&path).unwrap(), b"kept");
}

/// A number that a record has room for and the floor has not is the library's to refuse: no other record is meant by it.
#[test]
fn what_the_floor_lacks() {
    for words in [
        "x span 5 6600",
        "y span 4 6000",
        "x span 65535 6600",
        "x line 5 beam 400 700",
        "y line 6 beam 400 700",
        "column 6 0 offset 1 1",
        "column 30 0 offset 1 1",
        "column 0 5 offset 1 1",
        "column 0 65535 offset 1 1",
        "column 65535 0 offset 1 1",
        "column 65535 65535 offset 1 1",
        // 6 columns in a row: cut to two bytes, 6 * 10923 + 2 would be column 4 0.
        "column 2 10923 offset 1 1",
    ] {
        let (status, said) = said(&garage(), &[words]);
        assert_eq!(status, 2, "{words}");
        let start =
            format!("{words}: refused 9: the floor has no such span, line or column to change\n");
        assert_eq!(said, start);
    }
}

/// Nothing is done at all, not even the changes before it, and every fault is named.
#[test]
fn words_that_cannot_be_read() {
    for (words, fault) in [
        ("x span 65536 6600", "expected the x span's number, at most 65535, found `65536`; for example `x span 2 6600`"),
        ("y line 65537 beam 400 700", "expected the y line's number, at most 65535, found `65537`"),
        ("column 65536 0 offset 1 1", "expected the column's y line, at most 65535, found `65536`"),
        ("column 0 65536 offset 1 1", "expected the column's x line, at most 65535, found `65536`"),
        ("x span 2 4294967296", "expected the span in mm, at most 4294967295, found `4294967296`"),
        ("x span 2", "expected the span in mm, found the end of the line"),
        ("x span -1 6600", "expected the x span's number, digits alone, found `-1`"),
        ("x span 2 6,600", "expected the span in mm, digits alone, found `6,600`"),
        ("x span 2 6600 6600", "expected nothing more on the line, found `6600`"),
        ("x line 0 400 700", "expected `beam`, found `400`; for example `x line 0 beam 400 700`"),
        ("x line 0 beam 400", "expected the beam's depth in mm, found the end of the line"),
        ("column 2 0 250 0", "expected `offset`, found `250`; for example `column 2 0 offset 250 0`"),
        ("dead", "expected the dead load in N/m2, found the end of the line"),
        ("dead 7200 5000", "expected nothing more on the line, found `5000`"),
        ("loads 7200", "expected the live load in N/m2, found the end of the line"),
        ("slab 200", "expected a change that begins with one of x span, y span, x line, y line, column, dead, live, loads, found `slab`"),
        ("outer lines beam 400 700", "expected a change that begins with one of "),
        ("", "expected a change that begins with one of "),
        ("live\u{1}5000", "expected words and numbers, found bytes that are no text"),
    ] {
        let path = scratch("unread");
        let ran = change_to(&path, &garage(), &["dead 7000", words]);
        assert_eq!((ran.status, ran.words()), (3, ""), "{words}");
        assert!(ran.stderr.starts_with(&format!("slab: change 2: {fault}")), "{}", ran.stderr);
        assert!(!path.exists());
    }
    let ran = change(&garage(), &["dead", "live 5000", "live"]);
    assert_eq!((ran.status, ran.stdout.len()), (3, 0));
    assert!(ran.stderr.contains("change 1: ") && ran.stderr.contains("\n      change 3: "));
}

/// In the words of `check`.
#[test]
fn a_refused_floor() {
    let thin = with(&garage(), 1, 0, Field::C, 80);
    let (path, check) = (scratch("refused before"), slab_on(&["check", "-"], &thin));
    let ran = change_to(&path, &thin, &["dead 7000"]);
    assert_eq!((ran.status, &ran.stdout), (2, &check.stdout));
    assert!(!path.exists());
}

/// Without -o nothing is written; with it the floor that the changes make, over the file itself too, and one that is not clear.
#[test]
fn where_the_floor_goes() {
    let path = scratch("moved by change.floor");
    fs::write(&path, garage()).unwrap();
    let own = path.to_str().unwrap();
    assert_eq!(slab(&["change", own, "x span 2 9900"]).status, 1);
    assert_eq!(fs::read(&path).unwrap(), garage());
    assert_eq!(slab(&["change", "-o", own, own, "x span 2 9900"]).status, 1);
    assert_eq!(
        fs::read(&path).unwrap(),
        with(&garage(), 5, 2, Field::A, 9_900)
    );
}

/// The floor to standard output, and the words beside it.
#[test]
fn through_a_pipe() {
    let ran = change(&garage(), &["x span 2 9900", "x span 3 4800", "-o", "-"]);
    let floor = with(&garage(), 5, 2, Field::A, 9_900);
    assert_eq!((ran.status, &ran.stderr[..]), (1, MOVED));
    assert_eq!(ran.stdout, with(&floor, 5, 3, Field::A, 4_800));
    let ran = change(&garage(), &["x span 2 9910", "-o", "-"]);
    assert_eq!((ran.status, ran.stdout.len()), (2, 0));
    assert!(ran.stderr.starts_with("x span 2 9910: refused 5: "));
}

#[test]
fn what_cannot_be_read_or_written() {
    let missing = slab(&[
        "change",
        root("example/no.floor").to_str().unwrap(),
        "dead 7000",
    ]);
    assert_eq!((missing.status, missing.stdout.len()), (3, 0));
    assert!(
        missing.stderr.starts_with("slab: cannot read "),
        "{}",
        missing.stderr
    );
    let ran = change_to(&root("example"), &garage(), &["dead 7000"]);
    assert_eq!((ran.status, ran.words()), (3, "dead 7000: taken, clear\n"));
    assert!(
        ran.stderr.starts_with("slab: cannot write "),
        "{}",
        ran.stderr
    );
}

/// Below the verdict stands each limit once, however many places break it.
#[test]
fn limits_without_their_places() {
    let mut floor = Floor::clear(3, 3);
    floor.t = 100;
    let right = "live 10001: taken, not clear, verdict 80\n  \
                 16  the live load is more than twice the dead load\n  \
                 64  the slab is thinner than some panel's least thickness\n";
    assert_eq!(
        said(&floor.bytes(), &["live 10001"]),
        (1, right.to_string())
    );
}
