//! From file to text and back, byte for byte, and from text to file and back.

use cases::draw::Draw;
use cases::{floors, refusals};
use floor::Floor;
use reference::refusals::refusal;
use slab::text::{read, write};

fn assert_same(floor: &Floor, description: &str) {
    let text = write::text(floor);
    let again = read::floor(text.as_bytes());
    assert_eq!(again.as_ref(), Ok(floor), "{description}\n{text}");
}

/// The files of the floors and of the cases.
fn files() -> Vec<(String, Vec<u8>)> {
    let floors = floors::all().into_iter().chain(floors::long::inputs());
    let floors = floors.map(|floor| (floor.description, floor.bytes));
    let cases = refusals::all().into_iter();
    let cases = cases.map(|case| (case.description, case.floor));
    floors.chain(cases).collect()
}

/// 5 to 7 are about values, and a text holds any value. 3 and 4 are files that no text makes.
#[test]
fn every_file_of_right_form() {
    let mut tried = [0; 8];
    for (description, file) in files() {
        let refused = refusal(&file) as usize;
        let laid_out = Floor::of(&file);
        match refused {
            0 | 5..=7 => assert!(laid_out.is_some(), "{description}"),
            3 | 4 => assert!(laid_out.is_none(), "{description}"),
            _ => (),
        }
        if let Some(floor) = laid_out {
            assert_eq!(floor.bytes(), file, "{description}");
            assert_same(&floor, &description);
            tried[refused] += 1;
        }
    }
    for refused in [0, 1, 2, 5, 6, 7] {
        assert!(tried[refused] > 0, "none of refusal {refused}: {tried:?}");
    }
}

/// Now and then 0 or the largest number.
fn number(draw: &mut Draw) -> u32 {
    let any = draw.number();
    draw.one_of(&[0, 1, any % 13_000, any % 300, any, u32::MAX])
}

fn pairs(draw: &mut Draw, count: usize) -> Vec<(u32, u32)> {
    (0..count).map(|_| (number(draw), number(draw))).collect()
}

fn drawn(draw: &mut Draw) -> Floor {
    let nx = draw.between(0, 15);
    let ny = draw.between(0, 15);
    Floor {
        t: number(draw),
        fc: number(draw),
        fy: number(draw),
        dead: number(draw),
        live: number(draw),
        cx: number(draw),
        cy: number(draw),
        sides: number(draw),
        x_spans: (0..nx).map(|_| number(draw)).collect(),
        y_spans: (0..ny).map(|_| number(draw)).collect(),
        x_lines: pairs(draw, ny + 1),
        y_lines: pairs(draw, nx + 1),
        offsets: pairs(draw, (nx + 1) * (ny + 1)),
    }
}

#[test]
fn floors_of_any_numbers() {
    let mut draw = Draw::starting_at(11);
    for number in 0..600 {
        let floor = drawn(&mut draw);
        assert_eq!(Floor::of(&floor.bytes()).as_ref(), Some(&floor), "{number}");
        assert_same(&floor, &number.to_string());
    }
}

#[test]
fn every_sum_of_sides() {
    let mut floor = drawn(&mut Draw::starting_at(12));
    for sides in 0..=300 {
        floor.sides = sides;
        assert_same(&floor, &format!("sides {sides}"));
    }
}

/// 65,536 columns in a row: as many as a record's index can tell apart.
#[test]
fn the_longest_row() {
    let mut floor = drawn(&mut Draw::starting_at(13));
    floor.x_spans = (0..65_535).collect();
    floor.y_spans = Vec::new();
    floor.x_lines = vec![(7, 8)];
    floor.y_lines = (0..65_536).map(|line| (line, 1)).collect();
    floor.offsets = (0..65_536).map(|column| (2, column)).collect();
    assert_eq!(Floor::of(&floor.bytes()).as_ref(), Some(&floor));
    assert_same(&floor, "65,535 by 0 bays");
}

/// A floor of one bay each way, with one bit of one byte changed: laid out as that floor says, or not at all.
#[test]
fn every_bit() {
    let floor = Floor::good(1, 2).with_beams_everywhere().bytes();
    for bit in 0..8 * floor.len() {
        let mut file = floor.clone();
        file[bit / 8] ^= 1 << (bit % 8);
        let read = Floor::of(&file);
        assert_eq!(
            read.is_none(),
            matches!(refusal(&file), 3 | 4) || bit < 32 + 64,
            "bit {bit}"
        );
        if let Some(read) = read {
            assert_eq!(read.bytes(), file);
        }
    }
}
