//! The reader of the text form: each fault, with its line and what was expected there.

use crate::plain::{floor, plain, with, with_line, PLAIN};
use slab::text::faults::Fault;
use slab::text::read;

fn faults(text: &[u8]) -> Vec<Fault> {
    read::floor(text).expect_err("faults")
}

/// One fault alone, on this line, whose words begin so.
fn assert_fault(text: &str, line: usize, words: &str) {
    let faults = faults(text.as_bytes());
    assert_eq!(faults.len(), 1, "{faults:?}");
    assert_eq!(faults[0].line, line, "{faults:?}");
    assert!(faults[0].words.starts_with(words), "{faults:?}\n{words}");
}

/// A comment may be in any letters of any machine.
#[test]
fn bytes_that_are_no_text() {
    let comment = [PLAIN.as_bytes(), b"# B\xfcro \x00\n"].concat();
    assert_eq!(read::floor(&comment), Ok(plain()));
    for bytes in [&b"B\xfcro"[..], b"live\x005000", b"\xff\xfe", b"\x01"] {
        let faults = faults(&[PLAIN.as_bytes(), bytes].concat());
        assert_eq!(faults[0].line, 11);
        assert!(
            faults[0].words.contains("bytes that are no text"),
            "{faults:?}"
        );
    }
}

#[test]
fn faults_of_sides() {
    for (line, words) in [
        ("sides", "expected the west side, found the end of the line"),
        (
            "sides west columns",
            "expected the east side, found the end of the line",
        ),
        ("sides top columns", "expected the west side, found `top`"),
        (
            "sides west free",
            "expected columns, unrestrained or restrained, found `free`",
        ),
        (
            "sides west",
            "expected columns, unrestrained or restrained, found the end of the line",
        ),
        (
            "sides west columns west columns",
            "expected the west side once",
        ),
        (
            "sides columns columns",
            "expected nothing more on the line, found `columns`",
        ),
        (
            "sides 4294967296",
            "expected the sum of the sides, at most 4294967295",
        ),
    ] {
        assert_fault(&with_line("sides", line), 7, words);
    }
}

#[test]
fn faults_of_beams() {
    for (line, words) in [
        (
            "x line 2 beam 400 700",
            "expected one of the x lines 0 to 1 that the spans make, found 2",
        ),
        (
            "y line 3 beam 400 700",
            "expected one of the y lines 0 to 2 that the spans make, found 3",
        ),
        (
            "y line 4294967295 beam 400 700",
            "expected one of the y lines 0 to 2",
        ),
        (
            "x line beam 400 700",
            "expected the x line's number, digits alone, found `beam`",
        ),
        ("x line 0 400 700", "expected `beam`, found `400`"),
        (
            "x line 0 beam",
            "expected the beam's width in mm, found the end of the line",
        ),
        (
            "x line 0 beam 400",
            "expected the beam's depth in mm, found the end of the line",
        ),
        (
            "x line 0 beam 400 700 2",
            "expected nothing more on the line, found `2`",
        ),
        ("all lines 400 700", "expected `beam`, found `400`"),
    ] {
        assert_fault(&with(line), 11, words);
    }
}

#[test]
fn a_line_with_two_beams() {
    let twice = "x line 1 beam 400 700\n\nouter lines beam 400 700";
    assert_fault(
        &with(twice),
        13,
        "expected the beam on x line 1 once, and line 11 gives it already",
    );
}

#[test]
fn faults_of_offsets() {
    for (line, words) in [
        (
            "column 3 0 offset 1 1",
            "expected a column on y lines 0 to 2 and x lines 0 to 1",
        ),
        (
            "column 0 2 offset 1 1",
            "expected a column on y lines 0 to 2 and x lines 0 to 1",
        ),
        (
            "column 2 1 offset 1 1",
            "expected the offset of column 2 1 once, and line 10 gives it",
        ),
        (
            "column offset 1 1",
            "expected the column's y line, digits alone, found `offset`",
        ),
        (
            "column 0 offset 1 1",
            "expected the column's x line, digits alone, found `offset`",
        ),
        ("column 0 0 1 1", "expected `offset`, found `1`"),
        (
            "column 0 0 offset 1",
            "expected the offset along y in mm, found the end of the line",
        ),
        (
            "column 0 0 offset -1 1",
            "expected the offset along x in mm, digits alone, found `-1`",
        ),
        (
            "column 0 0 offset 1 1 1",
            "expected nothing more on the line, found `1`",
        ),
    ] {
        assert_fault(&with(line), 11, words);
    }
}

#[test]
fn numbers_that_are_none() {
    for (number, words) in [
        ("7,200", "digits alone, found `7,200`"),
        ("7.2", "digits alone, found `7.2`"),
        ("-7200", "digits alone, found `-7200`"),
        ("+7200", "digits alone, found `+7200`"),
        ("7200kg", "digits alone, found `7200kg`"),
        ("٧", "digits alone, found `٧`"),
        ("4294967296", "at most 4294967295, found `4294967296`"),
        (
            "99999999999999999999999",
            "at most 4294967295, found `99999999999999999999999`",
        ),
    ] {
        let words = format!("expected the dead load in N/m2, {words}; for example `dead 7200`");
        assert_fault(&with_line("dead", &format!("dead {number}")), 4, &words);
    }
    assert_eq!(floor(&with_line("dead", "dead 4294967295")).dead, u32::MAX);
}

#[test]
fn too_few_numbers_or_too_many() {
    assert_fault(
        &with_line("slab", "slab"),
        1,
        "expected the slab's thickness in mm, found the end",
    );
    assert_fault(
        &with_line("slab", "slab 200 mm"),
        1,
        "expected nothing more on the line, found `mm`",
    );
    assert_fault(
        &with_line("columns", "columns 600"),
        6,
        "expected the columns' size along y in mm, found",
    );
    assert_fault(
        &with_line("y spans", "y spans 6000 - 7000"),
        9,
        "expected a y span in mm, digits alone, found `-`",
    );
}

#[test]
fn what_is_no_line_of_a_floor() {
    assert_fault(
        &with("walls 3"),
        11,
        "expected a line that begins with slab, concrete, steel",
    );
    assert_fault(
        &with("x 3"),
        11,
        "expected a line that begins with slab, concrete, steel",
    );
    assert_fault(
        &with("slabs 3"),
        11,
        "expected a line that begins with slab, concrete, steel",
    );
}

#[test]
fn a_repeat_names_both_lines() {
    for (number, line) in (1..).zip(PLAIN.lines().take(9)) {
        let words = format!("once, and line {number} has it already");
        let faults = faults(with(line).as_bytes());
        assert_eq!((faults.len(), faults[0].line), (1, 11));
        assert!(faults[0].words.ends_with(&words), "{faults:?}");
    }
}

#[test]
fn what_is_missing() {
    for key in [
        "slab", "concrete", "steel", "dead", "live", "columns", "sides",
    ] {
        let words = format!("expected `{key}` before the text ends; for example `{key} ");
        assert_fault(&with_line(key, ""), 10, &words);
    }
    // Without spans nothing can be said of lines and columns.
    for key in ["x spans", "y spans"] {
        assert_fault(
            &with_line(key, ""),
            10,
            &format!("expected `{key}` before the text ends"),
        );
    }
    assert_eq!(faults(b"").len(), 9);
}

#[test]
fn all_faults_together_by_line() {
    let text = with_line("concrete", "concrete thirty").replace("live", "life");
    let text = format!("x line 9 beam 1 1\n{text}slab 1");
    let faults = faults(text.as_bytes());
    let lines: Vec<usize> = faults.iter().map(|fault| fault.line).collect();
    // `live` is missed at the end, which is line 12, as is the second slab.
    assert_eq!(lines, [1, 3, 6, 12, 12]);
}

#[test]
fn no_bays_and_many() {
    let none = floor(&with_line("y spans", "y spans").replace("column 2 1", "column 2 0"));
    assert_eq!(
        (none.y_spans.len(), none.x_lines.len(), none.offsets.len()),
        (0, 1, 3)
    );
    let many = format!("x spans{}", " 6000".repeat(40));
    assert_eq!(floor(&with_line("x spans", &many)).offsets.len(), 41 * 2);
    let crowd = format!("x spans{}", " 6000".repeat(32_768));
    assert_fault(
        &with_line("x spans", &crowd),
        8,
        "expected at most 65536 columns",
    );
}
