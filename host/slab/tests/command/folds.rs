//! Many places of a limit, folded into ranges.

use crate::page::{broken, expect_broken};
use crate::run::slab_on;
use floor::Floor;

const HINT: &str = "some lines stand for several places";

/// The columns on these y lines and x lines, off along x.
fn with_off(mut floor: Floor, columns: &[(usize, usize, u32)]) -> Vec<u8> {
    let across = floor.x_spans.len() + 1;
    for &(i, j, off) in columns {
        floor.offsets[j * across + i].0 = off;
    }
    floor.bytes()
}

/// x lines with the same columns are said together, those between them or not.
#[test]
fn rows_with_the_same_columns() {
    let mut columns = vec![(3, 2, 777)];
    for j in [0, 1, 3] {
        columns.extend([0, 1, 2, 4].map(|i| (i, j, 601 + 10 * j as u32)));
    }
    let file = with_off(Floor::clear(4, 3), &columns);
    let right = [
        "the 12 columns on y lines 0 to 2 and 4, x lines 0, 1 and 3: 601 to 631 mm off along x, \
         beside x spans 0 to 3 of 6000 mm",
        "column on y line 3, x line 2: 777 mm off along x, beside x spans 2 and 3 of 6000 and 6000 mm",
    ];
    expect_broken(&[], &file, &[(8, &right)]);
}

#[test]
fn five_are_folded_and_four_are_not() {
    let columns: Vec<(usize, usize, u32)> = (0..5).map(|i| (i, 1, 700)).collect();
    let five = with_off(Floor::clear(4, 3), &columns);
    let right = "the 5 columns on y lines 0 to 4, x line 1: 700 mm off along x, \
                 beside x spans 0 to 3 of 6000 mm";
    expect_broken(&[], &five, &[(8, &[right])]);
    let four = broken(&[], &with_off(Floor::clear(4, 3), &columns[1..]));
    assert_eq!(four[0].1.len(), 4);
}

/// Neighbours are folded where they follow one another.
#[test]
fn runs_of_neighbours() {
    let mut floor = Floor::clear(7, 3);
    floor.x_spans = vec![6_000, 3_980, 6_000, 3_980, 4_000, 4_000, 6_020];
    floor.y_spans = vec![6_000, 3_980, 6_000];
    let right = [
        "x spans 0 to 3: 6000, 3980, 6000 and 3980 mm, each two neighbours of which differ by more than \
         a third of the longer",
        "x spans 5 and 6: 4000 and 6020 mm, which differ by more than a third of the longer",
        "y spans 0 to 2: 6000, 3980 and 6000 mm, each two neighbours of which differ by more than \
         a third of the longer",
    ];
    expect_broken(&[], &floor.bytes(), &[(4, &right)]);
}

/// y span 3 does not follow x span 2.
#[test]
fn runs_of_one_direction() {
    let mut floor = Floor::clear(4, 6);
    floor.x_spans = vec![6_000, 3_980, 6_000, 3_980];
    floor.y_spans = vec![6_000, 6_000, 6_000, 6_000, 3_980, 6_000];
    let right = [
        "x spans 0 to 3: 6000, 3980, 6000 and 3980 mm, each two neighbours of which differ by more than \
         a third of the longer",
        "y spans 3 to 5: 6000, 3980 and 6000 mm, each two neighbours of which differ by more than \
         a third of the longer",
    ];
    expect_broken(&[], &floor.bytes(), &[(4, &right)]);
}

/// The y span of 4000 makes no panel slender, and is in no range.
#[test]
fn the_spans_of_folded_panels() {
    let mut floor = Floor::clear(3, 3);
    floor.x_spans = vec![5_820, 6_000, 7_000];
    floor.y_spans = vec![2_900, 2_900, 4_000];
    floor.t = 300;
    let right = "the 6 panels of x bays 0 to 2, y bays 0 and 1: 5820 to 7000 by 2900 mm, \
                 in each the longer is more than twice the shorter";
    expect_broken(&[], &floor.bytes(), &[(2, &[right])]);
}

#[test]
fn the_beams_of_folded_panels() {
    let mut floor = Floor::clear(3, 3);
    floor.x_lines = vec![(1_000, 1_500), (900, 1_500), (1_000, 1_400), (950, 1_450)];
    floor.y_lines = vec![(300, 400); 4];
    let right = "the 9 panels of x bays 0 to 2, y bays 0 to 2: 6000 by 6000 mm, \
                 beams 900 to 1000 by 1400 to 1500 on x lines 0 to 3, 300 by 400 on y lines 0 to 3";
    expect_broken(&[], &floor.bytes(), &[(32, &[right])]);
}

fn in_turn(one: u32, other: u32, count: usize) -> Vec<u32> {
    [one, other].into_iter().cycle().take(count).collect()
}

/// 144 panels for each of 2, 32 and 64, 22 pairs of neighbours, 169 columns each way, and the loads.
fn most_broken() -> Floor {
    Floor {
        t: 100,
        live: 10_001,
        cx: 200,
        cy: 200,
        x_spans: in_turn(3_060, 4_600, 12),
        y_spans: in_turn(1_000, 1_520, 12),
        x_lines: vec![(150, 101); 13],
        y_lines: vec![(200, 200); 13],
        offsets: vec![(461, 153); 169],
        ..Floor::good(12, 12)
    }
}

#[test]
fn as_many_places_as_there_can_be() {
    let file = most_broken().bytes();
    let all: Vec<usize> = counts(&["--all"], &file);
    assert_eq!(all, [144, 22, 338, 1, 144, 144]);
    assert_eq!(all.iter().sum::<usize>(), 793);
    assert_eq!(counts(&[], &file), [1, 2, 2, 1, 1, 1]);
}

fn counts(options: &[&str], file: &[u8]) -> Vec<usize> {
    let limits = broken(options, file).into_iter();
    limits.map(|(_, lines)| lines.len()).collect()
}

/// That some places are folded is said where some are.
#[test]
fn a_word_on_what_is_folded() {
    let words = |options: &[&str], floor: &Floor| -> String {
        let ran = slab_on(&[&["check"], options, &["-"]].concat(), &floor.bytes());
        ran.words().to_string()
    };
    let most = most_broken();
    assert!(words(&[], &most).contains(&format!(
        "\n{HINT}; `slab check --all` has a line for each of the 793\n"
    )));
    for (options, floor) in [
        (&["--all"][..], &most),
        (&[], &Floor::clear(3, 2)),
        (&[], &Floor::clear(3, 3)),
    ] {
        assert!(!words(options, floor).contains(HINT));
    }
}
