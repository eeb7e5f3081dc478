//! How each command ends: 0 clear or done, 1 not clear, 2 refused, 3 unusable.

use crate::run::{root, scratch, slab, slab_on};
use floor::{with, Field, Floor};
use std::fs;

fn garage() -> String {
    fs::read_to_string(root("example/garage.txt")).unwrap()
}

#[test]
fn by_the_verdict() {
    for (old, new, status) in [
        ("live 5000", "live 14400", 0),
        ("live 5000", "live 14401", 1),
        ("live 5000", "live 50001", 2),
        ("live 5000", "life 5000", 3),
    ] {
        for words in [
            &["check", "-"][..],
            &["check", "--all", "-"],
            &["check", "-", "--all"],
            &["clear", "-"],
            &["sheet", "-"],
            &["sheet", "--html", "-"],
            &["schedule", "-"],
            &["schedule", "-", "--out", "-"],
            &["change", "-", "column 0 0 offset 0 0"],
        ] {
            let ran = slab_on(words, garage().replace(old, new).as_bytes());
            assert_eq!(ran.status, status, "{words:?}, {new}: {}", ran.stderr);
        }
    }
}

/// A refused floor is made all the same, and its maker told.
#[test]
fn make_of_a_refused_floor() {
    let path = scratch("thin.floor");
    let text = garage().replace("slab 200", "slab 80");
    let ran = slab_on(
        &["make", "-", "-o", path.to_str().unwrap()],
        text.as_bytes(),
    );
    assert_eq!(ran.status, 0);
    assert!(
        ran.stderr.contains("but it is refused 2: "),
        "{}",
        ran.stderr
    );
    let check = slab(&["check", path.to_str().unwrap()]);
    assert_eq!(check.status, 2);
    assert!(check.words().contains("slab 80 mm"), "{}", check.words());
    let back = slab(&["text", path.to_str().unwrap()]);
    assert_eq!(
        (back.status, back.words()),
        (0, &text.replace("slab 80 ", "slab 80  ")[..])
    );
}

#[test]
fn make_of_a_text_with_faults_writes_nothing() {
    let path = scratch("faulty.floor");
    let ran = slab_on(
        &["make", "-", "-o", path.to_str().unwrap()],
        b"slab 200\nslab 200\n",
    );
    assert_eq!(ran.status, 3);
    assert!(
        ran.stderr
            .contains("standard input, line 2: expected `slab` once"),
        "{}",
        ran.stderr
    );
    assert!(!path.exists());
}

#[test]
fn text_of_what_is_laid_out_and_what_is_not() {
    let floor = Floor::good(3, 3).bytes();
    let out_of_range = with(&floor, 2, 0, Field::A, 19);
    let ran = slab_on(&["text", "-"], &out_of_range);
    assert_eq!(ran.status, 0);
    assert!(ran.words().contains("\nconcrete 19 "), "{}", ran.words());
    let stray = with(&floor, 2, 0, Field::C, 1);
    for (file, refused) in [
        (&floor[1..], 1),
        (&floor[16..], 2),
        (&floor[..floor.len() - 16], 3),
        (&stray, 4),
    ] {
        let ran = slab_on(&["text", "-"], file);
        assert_eq!((ran.status, ran.stdout.len()), (2, 0));
        let start = format!("slab: standard input: refused {refused}: ");
        assert!(ran.stderr.starts_with(&start), "{}", ran.stderr);
    }
}

const NO_COMMANDS: &[&[&str]] = &[
    &["chek", "a"],
    &["check"],
    &["check", "a", "b"],
    &["check", "a", "-o", "b"],
    &["check", "--loud", "a"],
    &["check", "--all"],
    &["check", "--all", "a", "--all"],
    &["check", "--all", "a", "b"],
    &["clear"],
    &["clear", "a", "b"],
    &["clear", "a", "-o", "b"],
    &["clear", "--all", "a"],
    &["change"],
    &["change", "a"],
    &["change", "a", "-o", "b"],
    &["change", "a", "dead 7200", "--all"],
    &["change", "a", "dead 7200", "-o"],
    &["change", "a", "dead 7200", "-o", "b", "-o", "c"],
    &["change", "a", "b"],
    &["sheet"],
    &["sheet", "a", "b"],
    &["sheet", "--html"],
    &["sheet", "a", "--html", "--html"],
    &["sheet", "a", "--all"],
    &["sheet", "a", "--name"],
    &["sheet", "a", "--date"],
    &["sheet", "a", "--name", "b", "--name", "c"],
    &["check", "a", "--html"],
    &["schedule"],
    &["schedule", "a", "b"],
    &["schedule", "a", "-o", "b"],
    &["schedule", "a", "--out"],
    &["schedule", "--out", "b"],
    &["schedule", "a", "--out", "b", "--out", "c"],
    &["schedule", "a", "--html"],
    &["sheet", "a", "--out", "b"],
    &["make"],
    &["make", "a", "-o"],
    &["make", "a", "-o", "b", "-o", "c"],
    &["make", "-o", "b"],
    &["make", "--all", "a"],
    &["text", "a", "b"],
    &["text", "a", "--all"],
    &["help", "make", "text"],
    &["help", "walls"],
];

#[test]
fn words_that_are_no_command() {
    for words in NO_COMMANDS {
        let ran = slab(words);
        assert_eq!((ran.status, ran.stdout.len()), (3, 0), "{words:?}");
        let unread = ran.stderr.starts_with("slab: ") && !ran.stderr.contains("cannot read");
        assert!(unread, "{words:?}: {}", ran.stderr);
    }
}
