//! The reader of the text form: each way of writing the same floor.

use crate::plain::{floor, plain, with, with_line, PLAIN};
use slab::text::write;

#[test]
fn a_plain_text() {
    assert_eq!(floor(PLAIN), plain());
}

#[test]
fn in_any_order() {
    let mut lines: Vec<&str> = PLAIN.lines().collect();
    for _ in 0..lines.len() {
        lines.rotate_left(1);
        assert_eq!(floor(&lines.join("\n")), plain());
    }
    lines.reverse();
    assert_eq!(floor(&lines.join("\n")), plain());
}

#[test]
fn written_in_one_form() {
    let reversed: Vec<&str> = PLAIN.lines().rev().collect();
    let written = write::text(&floor(&reversed.join("\n")));
    assert_eq!(written, write::text(&plain()));
    assert_eq!(write::text(&floor(&written)), written);
}

#[test]
fn comments_blanks_capitals_and_line_ends() {
    let noisy = PLAIN.replace('\n', "  # Büro, a note\n\n\t\n# slab 90\n");
    let noisy = noisy.replace("slab 200", "\t SLAB:   200,");
    assert_eq!(floor(&noisy), plain());
    assert_eq!(floor(&PLAIN.replace('\n', "\r\n")), plain());
    assert_eq!(floor(&format!("\u{feff}{PLAIN}")), plain());
    assert_eq!(floor(PLAIN.trim_end()), plain());
}

#[test]
fn sides_in_each_way() {
    let sides = |line: &str| floor(&with_line("sides", line)).sides;
    assert_eq!(sides("sides columns"), 0);
    assert_eq!(sides("sides unrestrained"), 85);
    assert_eq!(sides("sides restrained"), 170);
    assert_eq!(sides("sides 4294967295"), u32::MAX);
    assert_eq!(
        sides("sides north restrained west unrestrained east columns south columns"),
        129
    );
}

#[test]
fn beams_on_one_line_or_several() {
    let beams = |lines: &str| {
        let floor = floor(&with(lines));
        let widths = |lines: Vec<(u32, u32)>| lines.iter().map(|beam| beam.0).collect::<Vec<_>>();
        (widths(floor.x_lines), widths(floor.y_lines))
    };
    assert_eq!(
        beams("x line 1 beam 400 700"),
        (vec![0, 400], vec![0, 0, 0])
    );
    assert_eq!(
        beams("y line 1 beam 400 700"),
        (vec![0, 0], vec![0, 400, 0])
    );
    assert_eq!(
        beams("x lines beam 400 700"),
        (vec![400, 400], vec![0, 0, 0])
    );
    assert_eq!(
        beams("y lines beam 400 700"),
        (vec![0, 0], vec![400, 400, 400])
    );
    assert_eq!(
        beams("all lines beam 400 700"),
        (vec![400, 400], vec![400, 400, 400])
    );
    assert_eq!(
        beams("inner lines beam 350 600\nouter lines beam 400 700"),
        (vec![400, 400], vec![400, 350, 400])
    );
    assert_eq!(
        floor(&with("x line 0 beam 0 700")).x_lines,
        [(0, 700), (0, 0)]
    );
}
