//! The example garage in both its forms.

use crate::run::{command, root, scratch, slab, slab_on, Ran};
use std::fs;

fn text() -> Vec<u8> {
    fs::read(root("example/garage.txt")).unwrap()
}

fn floor() -> Vec<u8> {
    fs::read(root("example/garage.floor")).unwrap()
}

#[test]
fn make_gives_the_floor() {
    let ran = slab(&["make", root("example/garage.txt").to_str().unwrap()]);
    assert_eq!((ran.status, ran.stdout), (0, floor()), "{}", ran.stderr);
    assert_eq!(ran.stderr, "");
}

#[test]
fn text_gives_the_text() {
    let ran = slab(&["text", root("example/garage.floor").to_str().unwrap()]);
    assert_eq!((ran.status, ran.stdout), (0, text()), "{}", ran.stderr);
}

#[test]
fn through_a_pipe_or_to_a_file() {
    for (command, from, to) in [("make", text(), floor()), ("text", floor(), text())] {
        let ran = slab_on(&[command, "-"], &from);
        assert_eq!((ran.status, &ran.stdout), (0, &to));
        assert_eq!(slab_on(&[command, "-", "-o", "-"], &from).stdout, to);
        let path = scratch(&format!("garage by {command}"));
        let ran = slab_on(&[command, "-o", path.to_str().unwrap(), "-"], &from);
        assert_eq!((ran.status, ran.stdout.len()), (0, 0));
        assert_eq!(fs::read(path).unwrap(), to);
    }
}

#[test]
fn check_takes_either_and_says_the_same() {
    let (of_floor, of_text) = (
        slab_on(&["check", "-"], &floor()),
        slab_on(&["check", "-"], &text()),
    );
    assert_eq!((of_floor.status, of_text.status), (0, 0));
    assert_eq!(of_floor.words(), of_text.words());
}

/// "slab check shows no moment": no number of the sheet of four digits or more.
#[test]
fn check_shows_no_moment() {
    let sheet = fs::read_to_string(root("example/garage.sheet")).unwrap();
    let said = slab_on(&["check", "-"], &floor());
    let moments: Vec<&str> = sheet
        .split_whitespace()
        .filter(|number| number.len() > 3)
        .collect();
    assert!(moments.len() > 700, "{} moments", moments.len());
    for word in said.words().split(|letter: char| !letter.is_ascii_digit()) {
        assert!(!moments.contains(&word), "{word}");
    }
}

/// With `--all` too, of a floor that breaks nothing.
#[test]
fn nothing_is_listed_of_a_clear_floor() {
    let (some, all) = (
        slab_on(&["check", "-"], &floor()),
        slab_on(&["check", "--all", "-"], &floor()),
    );
    assert_eq!((some.status, some.words()), (0, all.words()));
}

fn in_the_readme(words: &str) {
    let readme = fs::read_to_string(root("README.md")).unwrap();
    let shown: Vec<String> = words.lines().map(|line| format!("    {line}")).collect();
    let shown: Vec<&str> = shown.iter().map(|line| line.trim_end()).collect();
    assert!(readme.contains(&shown.join("\n")), "{words}");
}

#[test]
fn check_as_the_readme_has_it() {
    let mut command = command(&["check", "example/garage.floor"]);
    let said = Ran::from(command.current_dir(root("")).output().unwrap());
    in_the_readme(said.words());
}

/// "Move a column line": 9900 − 4800 is more than a third of 9900.
#[test]
fn the_moved_garage_as_the_readme_has_it() {
    let path = scratch("moved.txt");
    let text = String::from_utf8(text()).unwrap();
    let moved = text.replace(
        "x spans 6600 7200 7500 7200 6600",
        "x spans 6600 7200 9900 4800 6600",
    );
    fs::write(&path, moved).unwrap();
    let mut command = command(&["check", "moved.txt"]);
    let said = Ran::from(
        command
            .current_dir(path.parent().unwrap())
            .output()
            .unwrap(),
    );
    assert_eq!(said.status, 1);
    in_the_readme(said.words());
}

#[test]
fn the_thin_garage_as_the_readme_has_it() {
    let text = String::from_utf8(text()).unwrap();
    let thin = text.replace("slab 200", "slab 150");
    let said = slab_on(&["check", "-"], thin.as_bytes());
    let lines: Vec<&str> = said.words().lines().collect();
    assert_eq!(lines[1], "not clear, verdict 64:");
    in_the_readme(&lines[2..5].join("\n"));
}

const MOVED: [&str; 2] = ["x span 2 9900", "x span 3 4800"];

#[test]
fn changes_as_the_readme_has_them() {
    let moved = slab_on(&["change", "-", MOVED[0], MOVED[1]], &floor());
    assert_eq!(moved.status, 1);
    in_the_readme(moved.words());
    let refused = slab_on(&["change", "-", "x span 2 6610"], &floor());
    assert_eq!(refused.status, 2);
    in_the_readme(refused.words());
}

#[test]
fn sheets_as_the_readme_has_them() {
    let clear = slab_on(&["sheet", "-"], &floor());
    let frame = clear.words().split("\n\n").nth(1).expect("a frame");
    let first: Vec<&str> = frame.lines().take(4).collect();
    in_the_readme(&first.join("\n"));
    let moved = slab_on(&["change", "-", MOVED[0], MOVED[1], "-o", "-"], &floor());
    let words = ["sheet", "--name", "moved", "--date", "2026-11-16", "-"];
    let broken = slab_on(&words, &moved.stdout);
    assert_eq!(broken.status, 1);
    in_the_readme(broken.words());
}

#[test]
fn the_schedule_as_the_readme_has_it() {
    let listed = slab_on(&["schedule", "-"], &floor());
    let frame = listed.words().split("\n\n").nth(1).expect("a frame");
    let first: Vec<&str> = frame.lines().take(5).collect();
    in_the_readme(&first.join("\n"));
    let path = scratch("garage.bars of the readme");
    let mut command = command(&["schedule", "example/garage.floor", "--out"]);
    command.arg(&path).current_dir(root(""));
    let told = Ran::from(command.output().unwrap());
    let (count, _) = told.words().split_once(" written to ").unwrap();
    in_the_readme(&format!("{count} written to garage.bars"));
}

/// The same places of a floor file and of its text.
#[test]
fn places_of_either_form() {
    let text = String::from_utf8(text()).unwrap();
    let moved = text.replace("7500 7200", "9900 4800").into_bytes();
    let file = slab_on(&["make", "-"], &moved).stdout;
    for words in [&["check", "-"][..], &["check", "--all", "-"]] {
        let (of_text, of_file) = (slab_on(words, &moved), slab_on(words, &file));
        assert_eq!((of_text.status, of_file.status), (1, 1));
        assert_eq!(of_text.words(), of_file.words());
    }
}
