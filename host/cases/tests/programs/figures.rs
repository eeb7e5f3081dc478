//! The figures that are run: the program's lines, the reference's, and the rows of docs/FIGURES.md.

use cases::figures::{stdin, stdout};
use cases::program::{first_difference, printed};
use std::collections::BTreeMap;
use std::fs;
use std::path::Path;

/// What the program prints of a figure, or what a row of the paper has: theirs, ours and the difference
/// in hundredths of a percent.
type Compared = [u64; 3];

fn number(word: &str) -> u64 {
    let digits = word.replace([',', '.'], "");
    digits
        .parse()
        .unwrap_or_else(|_| panic!("no number: {word:?}"))
}

/// By the figure's number: what is printed of it, and whether it is beyond one percent.
fn lines(printed: &str) -> BTreeMap<u64, (Compared, bool)> {
    let mut lines = BTreeMap::new();
    for line in printed.lines() {
        let words: Vec<&str> = line.split(' ').collect();
        let [figure, theirs, ours, off, word] = words[..] else {
            panic!("no figure: {line:?}");
        };
        assert!(["within", "beyond"].contains(&word), "{line}");
        let compared = [theirs, ours, off].map(number);
        let before = lines.insert(number(figure), (compared, word == "beyond"));
        assert_eq!(before, None, "figure {figure} comes twice");
    }
    lines
}

/// By the figure's number: what its row has, and whether it gives a cause. A row has number, place,
/// what is asked, as printed, theirs, ours, difference in percent with two decimals, cause.
fn rows(paper: &str) -> BTreeMap<u64, (Compared, bool)> {
    let mut rows = BTreeMap::new();
    for row in paper.lines() {
        let cells: Vec<&str> = row.split('|').map(str::trim).collect();
        let ["", figure, _, _, _, theirs, ours, off, cause, ""] = cells[..] else {
            continue;
        };
        let Ok(figure) = figure.parse() else {
            continue;
        };
        let compared = [theirs, ours, off].map(number);
        let before = rows.insert(figure, (compared, !cause.is_empty()));
        assert_eq!(before, None, "figure {figure} has two rows");
    }
    rows
}

fn paper() -> String {
    let root = Path::new(env!("CARGO_MANIFEST_DIR")).join("../..");
    fs::read_to_string(root.join("docs/FIGURES.md")).expect("docs/FIGURES.md")
}

#[test]
fn the_program_answers_as_the_reference() {
    let printed = printed("figures", &stdin());
    if let Some(difference) = first_difference(&stdout(), &printed) {
        panic!("{difference}");
    }
}

/// Each row has what the program prints, and a cause exactly where that is beyond one percent.
#[test]
fn the_paper_has_what_is_printed() {
    let lines = lines(&printed("figures", &stdin()));
    let rows = rows(&paper());
    for (figure, line) in &lines {
        assert_eq!(rows.get(figure), Some(line), "figure {figure}");
    }
    assert_eq!(rows.len(), lines.len());
}

/// By the factors of document 000 where request Two has the section with its flange: 105, 107, 109, 110,
/// 155. By slips of the sources: 108, 110, 413. Any other beyond one percent would be ours.
#[test]
fn no_other_figure_is_beyond_one_percent() {
    let lines = lines(&printed("figures", &stdin()));
    let beyond = lines.iter().filter(|(_, (_, beyond))| *beyond);
    let beyond: Vec<u64> = beyond.map(|(&figure, _)| figure).collect();
    assert_eq!(beyond, [105, 107, 108, 109, 110, 155, 413]);
}

#[test]
fn a_row_is_read() {
    let paper =
        "| figure | place |\n| 7 | there | Mo, N·m | 1.2 kN·m | 1,200 | 1,230 | 2.50 | a slip |\n\
                 | 8 | there | α | 1.2 | 12,000 | 12,001 | 0.01 |  |\n";
    let read = rows(paper);
    let expected = [
        (7, ([1200, 1230, 250], true)),
        (8, ([12000, 12001, 1], false)),
    ];
    assert_eq!(read, BTreeMap::from(expected));
}
