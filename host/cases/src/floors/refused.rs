//! Floors and other bytes that are refused, each number in several ways.

use super::Described;
use floor::{record, with, with_swapped, Field, Floor};
use reference::floor_file::RECORD_BYTES;

/// Beams everywhere, so that taking one away spoils the layout. Columns are 400 by 300, t 200.
fn base() -> Vec<u8> {
    Floor::good(3, 3).with_beams_everywhere().bytes()
}

pub fn floors() -> Vec<Described> {
    [
        lengths(),
        records_too_many_or_too_few(),
        fields(),
        beams(),
        two_faults(),
    ]
    .into_iter()
    .flatten()
    .collect()
}

/// 1: "length is no multiple of 16, or below 14 records"
fn lengths() -> Vec<Described> {
    let base = base();
    let mut floors = Vec::new();
    for length in [0, 1, 15, 16, 17, 13 * RECORD_BYTES, base.len() - 1] {
        floors.push(Described::bytes(
            format!("{length} bytes of a good floor"),
            base[..length].to_vec(),
        ));
    }
    let one_more = [&base[..], &[0]].concat();
    floors.push(Described::bytes("a good floor and a byte", one_more));
    floors
}

/// 3: "record count is not what nx and ny ask"
fn records_too_many_or_too_few() -> Vec<Described> {
    let base = base();
    let last = base.len() - RECORD_BYTES;
    let largest = Floor::good(12, 12).bytes();
    vec![
        Described::bytes("a record less", base[..last].to_vec()),
        Described::bytes("a record more", [&base[..], &base[last..]].concat()),
        Described::bytes(
            "12x12 and one offset more",
            [largest, record(9, 169, [0, 0, 0])].concat(),
        ),
    ]
}

/// One field of one record, by kind and index, and what is put in it: refusals 2 to 6.
const FIELDS: [(u16, u16, Field, u32); 39] = [
    (1, 0, Field::Kind, 2),
    (1, 0, Field::Index, 1),
    (1, 0, Field::A, 0),
    (1, 0, Field::A, 13),
    (1, 0, Field::B, 0),
    (1, 0, Field::B, 13),
    (1, 0, Field::C, 89),
    (1, 0, Field::C, 501),
    (1, 0, Field::A, 4),
    (1, 0, Field::B, 2),
    (2, 0, Field::Kind, 3),
    (3, 0, Field::Index, 1),
    (5, 2, Field::Kind, 6),
    (9, 15, Field::Index, 16),
    (2, 0, Field::C, 1),
    (3, 0, Field::C, 1 << 31),
    (5, 1, Field::B, 1),
    (6, 2, Field::C, 1 << 24),
    (7, 3, Field::C, 1),
    (9, 15, Field::C, 1),
    (2, 0, Field::A, 19),
    (2, 0, Field::A, 61),
    (2, 0, Field::B, 300),
    (3, 0, Field::A, 999),
    (3, 0, Field::A, 30_001),
    (3, 0, Field::B, 50_001),
    (4, 0, Field::A, 205),
    (4, 0, Field::B, 1_510),
    (4, 0, Field::C, 3),
    (4, 0, Field::C, 171),
    (4, 0, Field::C, 256),
    (5, 0, Field::A, 4_010),
    (5, 2, Field::A, 12_020),
    (6, 1, Field::A, 980),
    (7, 0, Field::A, 0),
    (7, 1, Field::A, 149),
    (8, 3, Field::B, 0),
    (8, 2, Field::B, 1_501),
    (9, 0, Field::A, 12_001),
];

fn fields() -> Vec<Described> {
    // 6: "2cx exceeds an x span, or 2cy a y span": 2·1,500 against 2,980, or 2·1,250 against 2,480.
    let narrow = with(&base(), 5, 2, Field::A, 2_980);
    let wide = with(&base(), 4, 0, Field::B, 1_250);
    let mut floors = vec![
        Described::bytes(
            "x span 2980, columns 1500",
            with(&narrow, 4, 0, Field::A, 1_500),
        ),
        Described::bytes(
            "y span 2480, columns 1250",
            with(&wide, 6, 1, Field::A, 2_480),
        ),
        Described::bytes("offsets swapped", with_swapped(&base(), (9, 0), (9, 15))),
    ];
    for (kind, index, field, value) in FIELDS {
        floors.push(Described::bytes(
            format!("kind {kind} index {index}: {field:?} {value}"),
            with(&base(), kind, index, field, value),
        ));
    }
    floors
}

/// 7: "layout not allowed, or a line has a beam whose depth is not above t"
fn beams() -> Vec<Described> {
    let mut floors = Vec::new();
    for (x_lines, y_lines) in [
        ("1111", "0000"),
        ("1011", "1111"),
        ("1111", "1110"),
        ("1001", "1101"),
        ("0110", "0110"),
        ("0000", "0001"),
    ] {
        floors.push(Described::floor(
            format!("beams on x lines {x_lines}, y lines {y_lines}"),
            &Floor::good(3, 3).with_beams(x_lines, y_lines),
        ));
    }
    for (kind, line) in [(7, 3), (8, 0)] {
        floors.push(Described::bytes(
            format!("kind {kind} index {line} of depth t"),
            with(&base(), kind, line, Field::B, 200),
        ));
    }
    floors
}

/// The lower number comes first wherever the faults stand.
fn two_faults() -> Vec<Described> {
    let late_kind = with(&base(), 9, 15, Field::Kind, 8);
    let narrow = with(&base(), 5, 2, Field::A, 2_980);
    let late_value = with(&narrow, 9, 15, Field::B, 12_001);
    let shallow = with(&base(), 7, 0, Field::B, 200);
    vec![
        Described::bytes(
            "materials out of range, last record of kind 8",
            with(&late_kind, 2, 0, Field::A, 19),
        ),
        Described::bytes(
            "column too wide, last offset out of range",
            with(&late_value, 4, 0, Field::A, 1_500),
        ),
        Described::bytes(
            "beam too shallow, y span too short for the column",
            with(
                &with(&shallow, 4, 0, Field::B, 1_500),
                6,
                2,
                Field::A,
                2_980,
            ),
        ),
        Described::bytes(
            "beam too shallow, sides out of range",
            with(&shallow, 4, 0, Field::C, 172),
        ),
    ]
}
