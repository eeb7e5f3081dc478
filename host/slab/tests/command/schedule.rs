//! The bar schedule, as text and as the file for the yard, held against the independent implementation.

use crate::check::inputs;
use crate::layers;
use crate::run::{root, scratch, slab, slab_on, Ran};
use crate::sheet_parts::kn_m;
use cases::floors::Described;
use floor::Floor;
use reference::schedule::{entries, schedule, Entry, ALWAYS_SUFFICE, BYTES};
use std::collections::BTreeSet;
use std::fs;

/// Clear, with beams of this width on every line of spans of 2,000: inside, the column strips have 1,000 mm, beams and slab together.
pub fn wide_beams(width: u32) -> Floor {
    Floor {
        x_spans: vec![2_000; 3],
        y_spans: vec![2_000; 3],
        x_lines: vec![(width, 600); 4],
        y_lines: vec![(width, 600); 4],
        ..Floor::clear(3, 3)
    }
}

/// Described ones, and some whose strips cannot be barred.
fn floors() -> Vec<Described> {
    let described = |description: String, floor: Floor| Described {
        description,
        bytes: floor.bytes(),
    };
    let wide = [900, 990, 1_000];
    let wide = wide.map(|width| described(format!("beams of {width}"), wide_beams(width)));
    let heavy = [(3_000, 6_000), (12_000, 20_000), (30_000, 50_000)].map(|(dead, live)| {
        let floor = Floor {
            dead,
            live,
            ..Floor::clear(4, 3)
        };
        described(format!("loads {dead} {live}"), floor)
    });
    let mut all = inputs();
    all.extend(wide);
    all.extend(heavy);
    all
}

fn to_stdout(file: &[u8]) -> Ran {
    slab_on(&["schedule", "-", "--out", "-"], file)
}

/// The rows of the text, in their order: width, kN·m, area, diameter, spacing.
fn rows(words: &str) -> Vec<[String; 5]> {
    let rows = words.lines().filter_map(|line| {
        let (left, spacing) = line.strip_prefix("    ")?.split_once(" mm @ ")?;
        let mut words = left.split_whitespace().rev();
        let mut next = || words.next().unwrap().to_string();
        let (diameter, area, moment, width) = (next(), next(), next(), next());
        Some([width, moment, area, diameter, spacing.to_string()])
    });
    rows.collect()
}

fn right_row(entry: &Entry) -> [String; 5] {
    let [_, _, _, width, moment, area, diameter, spacing] = entry.numbers();
    [
        width.to_string(),
        kn_m(moment),
        area.to_string(),
        diameter.to_string(),
        spacing.to_string(),
    ]
}

fn expect_barred(description: &str, file: &[u8], bytes: &[u8]) {
    let written = to_stdout(file);
    let count = bytes.len() / BYTES;
    assert_eq!(
        (written.status, &written.stdout[..]),
        (0, bytes),
        "{description}"
    );
    assert_eq!(
        written.stderr,
        format!("standard input: {count} records of 32 bytes written\n")
    );
    let listed = slab_on(&["schedule", "-"], file);
    assert_eq!(
        (listed.status, &listed.stderr[..]),
        (0, ""),
        "{description}"
    );
    let right: Vec<_> = entries(file).unwrap().iter().map(right_row).collect();
    assert_eq!(rows(listed.words()), right, "{description}");
    let depths = layers::depths(listed.words()).expect("the note of the layers");
    layers::expect_areas(description, file, depths);
}

fn expect_refused(description: &str, file: &[u8], number: u128) {
    let status = if number == 16 { 1 } else { 2 };
    for ran in [to_stdout(file), slab_on(&["schedule", "-"], file)] {
        assert_eq!((ran.status, ran.stdout.len()), (status, 0), "{description}");
        let start = format!("slab: standard input: refused {number}: ");
        assert!(
            ran.stderr.starts_with(&start),
            "{description}: {}",
            ran.stderr
        );
    }
}

#[test]
fn every_described_floor() {
    let mut met = BTreeSet::new();
    for Described { description, bytes } in floors() {
        let mut lent = vec![0; ALWAYS_SUFFICE];
        let (refused, count) = schedule(&bytes, &mut lent);
        met.insert(refused);
        match refused {
            0 => expect_barred(&description, &bytes, &lent[..BYTES * count as usize]),
            _ => expect_refused(&description, &bytes, refused),
        }
    }
    assert!(met.into_iter().eq((0..=7).chain([16, 17])));
}

/// As worked out beside the sheet's first span.
const FIRST_SPAN: &str = "
x line 0, south edge: spans from west to east
  span 0, 6600 mm
    section        steel   strip   width, mm  moment, kN·m  area, mm²  bars
    west end       top     column       1550          5.16        558  10 mm @ 210
    west end       top     middle       1500          4.58        540  10 mm @ 210
    between        bottom  column       1550         16.18        558  10 mm @ 210
    between        bottom  middle       1500         30.90        540  10 mm @ 210
    east end       top     column       1550         19.87        558  10 mm @ 210
    east end       top     middle       1500         37.94        588  10 mm @ 200
  span 1, 7200 mm
";

/// Both strips are 1,700 wide: 1,900 less 200, and 3,600 less 1,900. 756·200/420,000 of that are 612 mm², too few for two moments:
/// As·(2340900 − 70·As) must reach 1,809,318,905 at the south end, where 791 makes 1,807,854,230 and 792 1,810,084,320, and 1,473,302,887
/// between, where 641 makes 1,471,755,230 and 642 1,474,006,320. 79·1700/792 is 169, 79·1700/642 is 209. At the depth of the x bars 735 and 612
/// would do.
const A_SPAN_ALONG_Y: &str = "
  span 3, 6400 mm
    section        steel   strip   width, mm  moment, kN·m  area, mm²  bars
    south end      top     column       1700         20.27        612  10 mm @ 210
    south end      top     middle       1700         47.34        792  10 mm @ 160
    between        bottom  column       1700         16.51        612  10 mm @ 210
    between        bottom  middle       1700         38.55        642  10 mm @ 200
    north end      top     column       1700          5.48        612  10 mm @ 210
    north end      top     middle       1700          5.20        612  10 mm @ 210
";

#[test]
fn the_text_of_the_garage() {
    let path = root("example/garage.floor");
    let path = path.to_str().unwrap();
    let ran = slab(&["schedule", path]);
    let words = ran.words();
    let (first, rest) = words.split_once('\n').unwrap();
    assert_eq!(first, format!("{path}: bar schedule, 294 records"));
    assert!(
        rest.starts_with("slab 200 mm, concrete fc 30 MPa, "),
        "{rest}"
    );
    let notes = rest.lines().nth(1).unwrap();
    assert!(notes.ends_with(&format!(". {}", layers::NOTE)), "{notes}");
    assert!(words.contains(FIRST_SPAN), "{words}");
    let (_, along_y) = words.split_once("\ny line 0, west edge").unwrap();
    let (first, _) = along_y.split_once("\n\n").unwrap();
    assert!(format!("{first}\n").ends_with(A_SPAN_ALONG_Y), "{first}");
    let titles = words.lines().filter(|line| line.contains(": spans from "));
    assert_eq!(titles.count(), 11);
    assert!(words.contains("\ny line 5, east edge: spans from south to north\n  span 0, 6000 mm\n"));
}

/// A text in place of a floor file, and a file that is there already.
#[test]
fn to_a_file() {
    let path = scratch("garage.bars");
    let name = path.to_str().unwrap();
    let from = root("example/garage.txt");
    let from = from.to_str().unwrap();
    let printed = to_stdout(&fs::read(root("example/garage.floor")).unwrap());
    for _ in 0..2 {
        let ran = slab(&["schedule", "--out", name, from]);
        let told = format!("{from}: 294 records of 32 bytes written to {name}\n");
        assert_eq!(
            (ran.status, ran.words(), &ran.stderr[..]),
            (0, &told[..], "")
        );
        assert_eq!(fs::read(&path).unwrap(), printed.stdout);
        fs::write(&path, vec![7; 20_000]).unwrap();
    }
}

#[test]
fn a_schedule_that_cannot_be_written() {
    let folder = root("example");
    let floor = root("example/garage.floor");
    let words = [
        "schedule",
        floor.to_str().unwrap(),
        "--out",
        folder.to_str().unwrap(),
    ];
    let ran = slab(&words);
    assert_eq!((ran.status, ran.stdout.len()), (3, 0));
    assert!(
        ran.stderr.starts_with("slab: cannot write "),
        "{}",
        ran.stderr
    );
    let missing = slab(&["schedule", root("example/no.floor").to_str().unwrap()]);
    assert_eq!((missing.status, missing.stdout.len()), (3, 0));
    assert!(missing.stderr.starts_with("slab: cannot read "));
}

#[test]
fn help() {
    let asked = slab(&["schedule", "--help"]);
    assert_eq!((asked.status, &asked.stderr[..]), (0, ""));
    let words = asked.words();
    assert!(
        words.starts_with("slab schedule FLOOR [--out FILE]\n"),
        "{words}"
    );
    assert!(words.contains("\nExit status: 0 done, 1 not clear, 2 refused otherwise, 3 "));
}
