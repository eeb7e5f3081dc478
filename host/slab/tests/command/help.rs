//! Help, for the command and each of its commands.

use crate::run::{root, slab};
use slab::commands::COMMANDS;

#[test]
fn the_list_has_every_command() {
    let asked = slab(&["help"]);
    assert_eq!((asked.status, &asked.stderr[..]), (0, ""));
    for command in COMMANDS {
        assert!(asked
            .words()
            .contains(&format!("\n  slab {} ", command.name)));
    }
    for words in ["--help", "-h"] {
        assert_eq!(slab(&[words]).stdout, asked.stdout);
    }
}

/// Without a command the status is none that a clear floor has.
#[test]
fn no_command() {
    let none: [&str; 0] = [];
    let ran = slab(&none);
    assert_eq!((ran.status, ran.stdout.len()), (3, 0));
    assert!(ran.stderr.contains(slab(&["help"]).words()));
}

#[test]
fn each_command_in_full() {
    for command in COMMANDS {
        let asked = slab(&["help", command.name]);
        assert_eq!(asked.status, 0);
        assert!(asked
            .words()
            .starts_with(&format!("slab {} {}\n", command.name, command.usage)));
        assert!(asked.words().contains(command.help));
        assert_eq!(slab(&[command.name, "--help"]).stdout, asked.stdout);
    }
}

#[test]
fn check_and_its_option() {
    let asked = slab(&["help", "check"]);
    assert!(asked.words().starts_with("slab check [--all] FLOOR\n"));
    assert!(asked
        .words()
        .contains("With --all each place has its own line."));
    assert!(slab(&["help"])
        .words()
        .contains("\n  slab check [--all] FLOOR "));
}

/// The lines that `slab help make` shows are a text.
#[test]
fn the_guide_is_true() {
    let lines = slab::text::GUIDE.lines();
    let shown = lines.filter(|line| line.starts_with("  ") && !line.starts_with("   "));
    let shown = shown.filter(|line| !line.starts_with("  slab make"));
    let bare = shown.map(|line| line.trim().split("    ").next().unwrap());
    let text: Vec<&str> = bare.collect();
    let floor = slab::text::read::floor(text.join("\n").as_bytes()).unwrap();
    assert_eq!(
        (floor.t, floor.sides, floor.x_spans.len()),
        (200, 16 + 2 * 64, 5)
    );
    assert_eq!((floor.x_lines[0], floor.offsets[2]), ((400, 700), (250, 0)));
}

/// The changes that `slab help change` shows are taken by the garage.
#[test]
fn the_changes_shown_are_true() {
    let asked = slab(&["help", "change"]);
    let lines = asked.words().lines().filter(|line| line.starts_with("  '"));
    let quoted = lines.flat_map(|line| line.split('\'').skip(1).step_by(2));
    let changes: Vec<&str> = quoted.collect();
    assert_eq!(changes.len(), 6, "{changes:?}");
    let floor = root("example/garage.floor");
    let ran = slab(&[&["change", floor.to_str().unwrap()], &changes[..]].concat());
    assert_eq!((ran.status, &ran.stderr[..]), (0, ""));
    let right = changes
        .iter()
        .map(|change| format!("{change}: taken, clear\n"));
    assert_eq!(ran.words(), right.collect::<String>());
}
