//! What is said where there is no bar schedule: which strips cannot be barred, by the reference, and why.

use crate::run::{root, scratch, slab, slab_on};
use crate::schedule::wide_beams;
use floor::Floor;
use reference::schedule::{each, Lack};
use reference::steel::steel;
use reference::table::numbers;
use std::fs;

const SENTENCE: &str = "refused 17: in some strip the beam leaves no width for bars, or no steel area fits the moment, \
                        or no bar of 10, 12 or 16 mm allows a spacing";

/// The lines below the sentence.
fn look(floor: &Floor) -> Vec<String> {
    let ran = slab_on(&["schedule", "-"], &floor.bytes());
    assert_eq!((ran.status, ran.stdout.len()), (2, 0), "{}", ran.stderr);
    let mut lines = ran.stderr.lines();
    let first = lines.next().unwrap();
    assert_eq!(first, format!("slab: standard input: {SENTENCE}"));
    lines
        .map(|line| line.strip_prefix("  ").unwrap().to_string())
        .collect()
}

fn loaded(dead: u32, live: u32) -> Floor {
    Floor {
        dead,
        live,
        ..Floor::clear(4, 3)
    }
}

/// The strips that lack something, by their place in the schedule.
fn lacks(floor: &Floor) -> Vec<(usize, Lack)> {
    let each = each(&floor.bytes());
    let all = each.into_iter().enumerate();
    all.filter_map(|(place, one)| Some((place, one.err()?)))
        .collect()
}

/// In 4 by 3 bays record 4·line + span is on an x line, 16 + 3·line + span on a y line.
fn named(place: usize) -> String {
    let (record, section, strip) = (place / 6, place % 6 / 2, place % 2);
    let (way, line, last, span) = match record {
        0..16 => ("x", record / 4, 3, record % 4),
        _ => ("y", (record - 16) / 3, 4, (record - 16) % 3),
    };
    let [sections, edges] = match way {
        "x" => [["west end", "between", "east end"], ["south", "", "north"]],
        _ => [["south end", "between", "north end"], ["west", "", "east"]],
    };
    let edge = match line {
        0 => format!(", {} edge", edges[0]),
        _ if line == last => format!(", {} edge", edges[2]),
        _ => String::new(),
    };
    let strip = ["column", "middle"][strip];
    format!(
        "{way} line {line}{edge}, span {span}, {}, {strip} strip of ",
        sections[section]
    )
}

/// The area of a strip whose width the rest of its line begins with: in x frames at t − 26, in y frames by default.
fn needed(floor: &Floor, place: usize, rest: &str) -> u128 {
    let (width, _) = rest.split_once(" mm ").unwrap();
    let (record, section, strip) = (place / 6, place % 6 / 2, place % 2);
    let part = [5, 3][strip];
    let moment = numbers(&floor.bytes())[16 * record + 5 * section + part];
    let [t, fc, fy] = [floor.t, floor.fc, floor.fy].map(u128::from);
    let d = if record < 16 { t - 26 } else { 0 };
    let (_, area) = steel(moment.into(), width.parse().unwrap(), t, d, fc, fy);
    area
}

fn expect_named(floor: &Floor) -> Vec<Lack> {
    let lacks = lacks(floor);
    let lines = look(floor);
    assert_eq!(lines.len(), lacks.len().min(5), "{lines:?}");
    for (line, &(place, lack)) in lines.iter().zip(&lacks).take(4) {
        let start = named(place);
        assert!(line.starts_with(&start), "{line}, right is {start}");
        let needed = needed(floor, place, &line[start.len()..]);
        let why = match lack {
            Lack::Area => ": no steel area fits".to_string(),
            Lack::Bar => format!(": {needed} mm² needed, more than bars of 16 mm @ 80 have"),
            Lack::Width => panic!("{line}"),
        };
        assert!(line.ends_with(&why), "{line}, right is {why}");
    }
    if lacks.len() > 4 {
        assert_eq!(lines[4], format!("and {} more", lacks.len() - 4));
    }
    lacks.into_iter().map(|(_, lack)| lack).collect()
}

/// From the lightest load at which it is refused 17, where 201/80 mm² for each mm are too few along y, and the lightest at which they are along x
/// too, to the heaviest, where the strain allows no area.
#[test]
fn strips_by_name() {
    let lightest = |meant: fn(usize) -> bool| {
        let mut loads = (1_000..25_000)
            .step_by(20)
            .map(|dead| loaded(dead, 2 * dead));
        let lacking = |floor: &Floor| lacks(floor).iter().any(|&(place, _)| meant(place));
        loads.find(lacking).unwrap()
    };
    let first = expect_named(&lightest(|_| true));
    assert!(first.iter().all(|lack| *lack == Lack::Bar));
    assert!(expect_named(&lightest(|place| place < 6 * 16)).len() > first.len());
    assert!(expect_named(&loaded(25_000, 50_000)).contains(&Lack::Area));
}

/// Beams of 1,000 leave no width under any load; those of 999 a mm, enough for the least loads alone.
#[test]
fn wide_beams_on_short_spans() {
    assert_eq!(
        look(&wide_beams(1_000)),
        ["under the least loads, dead 1000 and live 0, it is so too: look for a wide beam beside short spans"]
    );
    let narrow = look(&wide_beams(999));
    let first = "x line 1, span 0, between, column strip of 1 mm with ";
    assert!(narrow[0].starts_with(first) && narrow[0].ends_with(": no steel area fits"));
}

#[test]
fn not_clear() {
    let mut floor = Floor::clear(3, 3);
    floor.t = 186;
    let ran = slab_on(&["schedule", "-"], &floor.bytes());
    assert_eq!((ran.status, ran.stdout.len()), (1, 0));
    assert_eq!(
        ran.stderr,
        "slab: standard input: refused 16: the floor is not clear, and bars stand only on a floor that is\n  \
         `slab check` says what is broken\n"
    );
}

/// In the words of `check`, with what to look at.
#[test]
fn a_refused_floor() {
    let garage = fs::read(root("example/garage.floor")).unwrap();
    let ran = slab_on(&["schedule", "-"], &garage[16..]);
    let check = slab_on(&["check", "-"], &garage[16..]);
    assert_eq!((ran.status, ran.stdout.len()), (2, 0));
    assert_eq!(ran.stderr, format!("slab: {}", check.words()));
}

/// None is made, and one that is there stays as it was.
#[test]
fn no_file_is_written() {
    let mut thin = Floor::clear(3, 3);
    thin.t = 186;
    let refused = [
        thin.bytes()[16..].to_vec(),
        thin.bytes(),
        wide_beams(1_000).bytes(),
    ];
    for (file, number) in refused.iter().zip([2, 16, 17]) {
        let path = scratch(&format!("no bars {number}"));
        let words = ["schedule", "-", "--out", path.to_str().unwrap()];
        let started = format!("slab: standard input: refused {number}: ");
        let ran = slab_on(&words, file);
        assert!(ran.stderr.starts_with(&started), "{}", ran.stderr);
        assert!(!path.exists());
        fs::write(&path, "older bars").unwrap();
        slab_on(&words, file);
        assert_eq!(fs::read(&path).unwrap(), b"older bars");
    }
    let path = scratch("no floor, no bars");
    let words = ["schedule", "no such floor", "--out", path.to_str().unwrap()];
    assert_eq!(slab(&words).status, 3);
    assert!(!path.exists());
}
