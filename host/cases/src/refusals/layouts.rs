//! Floors alone, for refusal 7 and the three layouts.

use super::Case;
use floor::{last_index, with, Field, Floor};

pub fn cases() -> Vec<Case> {
    let mut cases = Vec::new();
    cases.extend(every_choice_of_lines(1, 1));
    for (nx, ny, words, x_lines, y_lines) in CHOSEN {
        cases.push(of_lines(nx, ny, words, x_lines, y_lines));
    }
    cases.extend(depths());
    cases
}

fn of_lines(nx: usize, ny: usize, words: &str, x_lines: &str, y_lines: &str) -> Case {
    Case::floor(
        format!("{nx}x{ny} beams {words}: x lines {x_lines}, y lines {y_lines}"),
        Floor::good(nx, ny).with_beams(x_lines, y_lines).bytes(),
    )
}

fn every_choice_of_lines(nx: usize, ny: usize) -> Vec<Case> {
    let lines = nx + ny + 2;
    (0..1 << lines)
        .map(|choice: usize| {
            let text = format!("{choice:0lines$b}");
            let (x_lines, y_lines) = text.split_at(ny + 1);
            of_lines(nx, ny, "by choice", x_lines, y_lines)
        })
        .collect()
}

const CHOSEN: [(usize, usize, &str, &str, &str); 50] = [
    (1, 2, "none", "000", "00"),
    (1, 2, "everywhere", "111", "11"),
    (1, 2, "outer only", "101", "11"),
    (1, 2, "x lines only", "111", "00"),
    (1, 2, "inner line only", "010", "00"),
    (1, 2, "all but an outer line", "111", "01"),
    (2, 1, "none", "00", "000"),
    (2, 1, "everywhere", "11", "111"),
    (2, 1, "outer only", "11", "101"),
    (2, 1, "y lines only", "00", "111"),
    (2, 1, "inner line only", "00", "010"),
    (2, 1, "all but an outer line", "10", "111"),
    (2, 2, "none", "000", "000"),
    (2, 2, "everywhere", "111", "111"),
    (2, 2, "outer only", "101", "101"),
    (2, 2, "outer less south", "001", "101"),
    (2, 2, "outer less north", "100", "101"),
    (2, 2, "outer less west", "101", "001"),
    (2, 2, "outer less east", "101", "100"),
    (2, 2, "all but inner x line", "101", "111"),
    (2, 2, "all but inner y line", "111", "101"),
    (2, 2, "inner lines only", "010", "010"),
    (3, 3, "none", "0000", "0000"),
    (3, 3, "everywhere", "1111", "1111"),
    (3, 3, "outer only", "1001", "1001"),
    (3, 3, "outer less south", "0001", "1001"),
    (3, 3, "outer less north", "1000", "1001"),
    (3, 3, "outer less west", "1001", "0001"),
    (3, 3, "outer less east", "1001", "1000"),
    (3, 3, "all but an inner x line", "1011", "1111"),
    (3, 3, "all but an inner x line", "1101", "1111"),
    (3, 3, "all but an inner y line", "1111", "1011"),
    (3, 3, "all but an inner y line", "1111", "1101"),
    (3, 3, "all but an outer line", "0111", "1111"),
    (3, 3, "all but an outer line", "1111", "1110"),
    (3, 3, "outer and an inner x line", "1101", "1001"),
    (3, 3, "outer and an inner y line", "1001", "1011"),
    (3, 3, "all x lines and outer y lines", "1111", "1001"),
    (3, 3, "all y lines and outer x lines", "1001", "1111"),
    (3, 3, "x lines only", "1111", "0000"),
    (3, 3, "y lines only", "0000", "1111"),
    (3, 3, "outer x lines only", "1001", "0000"),
    (3, 3, "outer y lines only", "0000", "1001"),
    (3, 3, "inner lines only", "0110", "0110"),
    (3, 3, "one inner line only", "0100", "0000"),
    (3, 3, "last line only", "0000", "0001"),
    (3, 1, "everywhere", "11", "1111"),
    (3, 1, "outer only", "11", "1001"),
    (1, 3, "outer only", "1001", "11"),
    (3, 2, "outer only", "101", "1001"),
];

/// "a line has a beam whose depth is not above t", t being 200 here.
fn depths() -> Vec<Case> {
    let base = Floor::good(3, 2).with_beams_everywhere().bytes();
    let mut cases = Vec::new();
    for (kind, direction) in [(7, "x"), (8, "y")] {
        for line in 0..=last_index(&base, kind) {
            for depth in [200, 201] {
                cases.push(Case::floor(
                    format!("{direction} line {line} of depth {depth}, t 200"),
                    with(&base, kind, line, Field::B, depth),
                ));
            }
        }
    }
    cases
}
