//! The sheet of every floor, as text and as a page, held against the independent implementation.

use crate::check::inputs;
use crate::layers;
use crate::run::{root, slab, slab_on};
use crate::sheet_parts::{article, kn_m, of_page, of_text, pieces, sheet, Numbers};
use cases::floors::Described;
use reference::floor_file::sizes;
use reference::verdict::judge;
use reference::{governing, schedule, table};
use std::fs;

fn right(file: &[u8]) -> Numbers {
    let table = table::numbers(file);
    let governing = governing::numbers(sizes(file), &table);
    let entries = schedule::entries(file).unwrap_or_default().into_iter();
    let bars = entries.map(|entry| format!("{} @ {}", entry.diameter, entry.spacing));
    Numbers {
        table,
        governing,
        bars: bars.collect(),
    }
}

/// Without the static moment that stands first in each record.
fn sections(table: &[u32]) -> Vec<String> {
    let records = table.chunks(16).flat_map(|record| &record[1..]);
    records.map(|&moment| kn_m(moment)).collect()
}

fn expect_clear(description: &str, file: &[u8]) {
    let Numbers {
        table,
        governing,
        bars,
    } = right(file);
    let (text, page) = (sheet(&[], file), sheet(&["--html"], file));
    assert_eq!((text.status, page.status), (0, 0), "{description}");
    let said = of_text(text.words());
    assert_eq!(said.table, table, "{description}");
    assert_eq!(said.governing, governing, "{description}");
    assert_eq!(said.bars, bars, "{description}");
    let cells = |class, of_cells| of_page(page.words(), class, of_cells);
    let sections = sections(&table);
    assert_eq!(cells("spans", "moment"), sections, "{description}");
    let supports: Vec<String> = governing.into_iter().map(kn_m).collect();
    assert_eq!(cells("supports", "moment"), supports, "{description}");
    assert_eq!(cells("spans", "bars"), bars, "{description}");
    for words in [text.words(), page.words()] {
        let unbarred = words.contains("No bars are shown. Refused 17: ");
        assert_eq!(unbarred, bars.is_empty(), "{description}");
        let t = sizes(file).t as u32;
        let depths = (!unbarred).then_some([t - 26, t - 38]);
        assert_eq!(layers::depths(words), depths, "{description}");
    }
}

/// The sentences of what is broken, and no digit: not of a moment, not of anything else.
fn expect_broken(description: &str, file: &[u8], verdict: u128) {
    let (text, page) = (sheet(&[], file), sheet(&["--html"], file));
    assert_eq!((text.status, page.status), (1, 1), "{description}");
    let limits = fs::read_to_string(root("words/limits.txt")).unwrap();
    let limits = limits.lines().filter_map(|line| line.split_once(' '));
    let broken = limits.filter(|(number, _)| number.parse::<u128>().unwrap() & verdict != 0);
    let mut lines = vec![
        "a floor",
        "a day",
        "not clear: no moment stands, and nothing may be built from this sheet",
        "What is broken:",
    ];
    lines.extend(broken.map(|(_, sentence)| sentence));
    let text: Vec<&str> = text.words().lines().map(str::trim_start).collect();
    assert_eq!(text, lines, "{description}");
    let page = article(page.words()).replace("&#39;", "'");
    assert_eq!(pieces(&page), lines, "{description}");
    assert!(!page.contains("moment\"") && !page.contains("<table"));
    assert!(!lines
        .concat()
        .contains(|letter: char| letter.is_ascii_digit()));
}

/// In the words of `check`, and no sheet.
fn expect_refused(description: &str, file: &[u8]) {
    let check = slab_on(&["check", "-"], file);
    for options in [&[][..], &["--html"]] {
        let ran = sheet(options, file);
        assert_eq!((ran.status, ran.stdout.len()), (2, 0), "{description}");
        assert_eq!(
            ran.stderr,
            format!("slab: {}", check.words()),
            "{description}"
        );
    }
}

#[test]
fn every_described_floor() {
    let mut met = [0; 3];
    for Described { description, bytes } in inputs() {
        let outcome = match judge(&bytes) {
            (0, 0) => {
                expect_clear(&description, &bytes);
                0
            }
            (0, verdict) => {
                expect_broken(&description, &bytes, verdict);
                1
            }
            _ => {
                expect_refused(&description, &bytes);
                2
            }
        };
        met[outcome] += 1;
    }
    assert!(met.iter().all(|&count| count > 20), "{met:?}");
}

/// Every number of the sheet that `print` writes, the static moments too.
#[test]
fn the_garage_by_its_kept_sheet() {
    let kept = fs::read_to_string(root("example/garage.sheet")).unwrap();
    let kept = kept.lines().skip(1).flat_map(str::split_whitespace);
    let kept: Vec<u32> = kept.map(|number| number.parse().unwrap()).collect();
    for name in ["example/garage.floor", "example/garage.txt"] {
        let ran = slab(&["sheet", root(name).to_str().unwrap()]);
        assert_eq!((ran.status, &ran.stderr[..]), (0, ""));
        assert_eq!(of_text(ran.words()).table, kept);
    }
}
