//! What a refusal's page says to look at, held against the independent implementation.

use crate::run::slab_on;
use cases::{floors, refusals};
use floor::{with, Field, Floor};
use reference::floor_file::{records, values_are_in_range};
use reference::refusals::refusal;

fn looked_at(file: &[u8]) -> Vec<String> {
    let ran = slab_on(&["check", "-"], file);
    assert_eq!(ran.status, 2, "{}", ran.words());
    let lines = ran.words().lines().skip(1);
    lines
        .map(|line| line.strip_prefix("  ").unwrap().to_string())
        .collect()
}

/// 5: as many lines as there are records out of range.
#[test]
fn every_value_out_of_range() {
    let floors = floors::all().into_iter().map(|floor| floor.bytes);
    let cases = refusals::all().into_iter().map(|case| case.floor);
    let refused = floors.chain(cases).filter(|file| refusal(file) == 5);
    let mut tried = 0;
    for file in refused {
        let bad = records(&file)
            .into_iter()
            .filter(|&record| !values_are_in_range(record));
        let bad = bad.count();
        assert_eq!(looked_at(&file).len(), bad);
        tried += 1;
    }
    assert!(tried > 40, "{tried} floors");
}

#[test]
fn values_are_named_with_their_range() {
    let floor = Floor::good(3, 2).with_beams_everywhere().bytes();
    let floor = with(&floor, 2, 0, Field::B, 300);
    let floor = with(&floor, 3, 0, Field::A, 999);
    let floor = with(&floor, 4, 0, Field::C, 3);
    let floor = with(&floor, 5, 2, Field::A, 4_010);
    let floor = with(&floor, 6, 0, Field::A, 12_020);
    let floor = with(&floor, 7, 1, Field::A, 0);
    let floor = with(&floor, 8, 3, Field::B, 1_501);
    let floor = with(&floor, 9, 6, Field::B, 12_001);
    assert_eq!(
        looked_at(&floor),
        [
            "concrete 30, steel 300: expected concrete 20 to 60, steel 280, 420 or 520",
            "dead 999, live 2000: expected dead 1000 to 30000, live 0 to 50000",
            "columns 400 300, sides 3: expected columns 200 to 1500 each way, multiples of 10; \
             each side columns, unrestrained or restrained",
            "x span 2 of 4010 mm: expected 1000 to 12000, a multiple of 20",
            "y span 0 of 12020 mm: expected 1000 to 12000, a multiple of 20",
            "x line 1 beam 0 615: expected width 150 to 1000 and depth 91 to 1500, or both 0",
            "y line 3 beam 380 1501: expected width 150 to 1000 and depth 91 to 1500, or both 0",
            "column 2 1 offset 0 12001: expected 0 to 12000 each way",
        ]
    );
}

#[test]
fn spans_too_short_for_the_columns() {
    let mut floor = Floor::clear(3, 3);
    (floor.cx, floor.cy) = (1_500, 1_000);
    floor.x_spans = vec![2_980, 3_000, 2_000];
    floor.y_spans = vec![2_000, 1_980, 2_000];
    assert_eq!(
        looked_at(&floor.bytes()),
        [
            "x span 0 of 2980 mm: columns 1500 1000",
            "x span 2 of 2000 mm: columns 1500 1000",
            "y span 1 of 1980 mm: columns 1500 1000",
        ]
    );
}

#[test]
fn beams_too_shallow_and_layouts_not_allowed() {
    let mut floor = Floor::clear(3, 3).with_beams_everywhere();
    floor.x_lines[1].1 = 200;
    floor.y_lines[3].1 = 199;
    let shallow = [
        "x line 1 beam 310 200: slab 200",
        "y line 3 beam 380 199: slab 200",
    ];
    assert_eq!(looked_at(&floor.bytes()), shallow);
    floor.x_lines[2] = (0, 0);
    floor.y_lines[0] = (0, 0);
    let layout = "beams on x lines 0 1 3 of 0 to 3, on y lines 1 2 3 of 0 to 3";
    assert_eq!(
        looked_at(&floor.bytes()),
        [&shallow[..], &[layout]].concat()
    );
    let floor = Floor::clear(3, 3).with_beams("0000", "0100");
    let layout = "beams on x lines none, on y lines 1 of 0 to 3";
    assert_eq!(looked_at(&floor.bytes()), [layout]);
}

#[test]
fn what_the_file_is_like() {
    let floor = Floor::good(3, 3).bytes();
    assert_eq!(looked_at(&floor[..225]), ["the file has 225 bytes"]);
    let thin = with(&floor, 1, 0, Field::C, 89);
    let sizes = "the first record: kind 1, index 0, 3 by 3 bays, slab 89 mm";
    assert_eq!(looked_at(&thin), [sizes]);
    let short = &floor[..floor.len() - 16];
    let sizes = "the first record: kind 1, index 0, 3 by 3 bays, slab 200 mm";
    assert_eq!(looked_at(short), [sizes, "the file has 33 records"]);
}
