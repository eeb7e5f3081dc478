//! "The printing program"

use crate::hand_made::{self, ONE_BAY};
use crate::verdict::refused;
use floor::Floor;
use reference::sheet::sheet;
use reference::table::numbers;

/// "(14 records) prints only `0 1`."
#[test]
fn the_floor_of_01() {
    assert_eq!(sheet(&hand_made::floor(ONE_BAY)), "0 1\n");
}

#[test]
fn refused_floors() {
    for (number, floor) in refused() {
        assert_eq!(sheet(&floor), format!("{number} 255\n"));
    }
    assert_eq!(sheet(&[]), "1 255\n");
}

/// "at verdict 0 then one line per record, sixteen numbers, spaces between"
#[test]
fn a_clear_floor() {
    let floor = Floor::clear(3, 3).bytes();
    let sheet = sheet(&floor);
    assert!(sheet.starts_with("0 0\n") && sheet.ends_with('\n'));
    let mut printed = Vec::new();
    for line in sheet.lines().skip(1) {
        let words: Vec<&str> = line.split(' ').collect();
        assert_eq!(words.len(), 16, "{line:?}");
        printed.extend(words.iter().map(|word| word.parse::<u32>().unwrap()));
    }
    assert_eq!(printed, numbers(&floor));
}
