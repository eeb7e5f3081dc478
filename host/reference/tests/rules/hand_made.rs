//! Floors typed record by record, made without the code under test.

use floor::Floor;

/// The floor at the end of "The printing program".
pub const ONE_BAY: &str = "
1 0 1 1 200
2 0 30 420 0
3 0 5000 2000 0
4 0 400 400 0
5 0 4000 0 0
6 0 4000 0 0
7 0 0 0 0
7 1 0 0 0
8 0 0 0 0
8 1 0 0 0
9 0 0 0 0
9 1 0 0 0
9 2 0 0 0
9 3 0 0 0";

/// 2 by 1 bays, beams on the outer lines only: y line 1 has none. West is fully restrained, east
/// unrestrained, south has columns, north is unrestrained: 2 + 4·1 + 16·0 + 64·1 = 70.
pub const TWO_BY_ONE: &str = "
1 0 2 1 180
2 0 25 280 0
3 0 6000 3000 0
4 0 450 350 70
5 0 5000 0 0
5 1 6000 0 0
6 0 7000 0 0
7 0 300 600 0
7 1 310 610 0
8 0 350 700 0
8 1 0 0 0
8 2 360 710 0
9 0 1 10 0
9 1 2 20 0
9 2 3 30 0
9 3 4 40 0
9 4 5 50 0
9 5 6 60 0";

/// 1 by 1 bay with beams and the thinnest slab.
pub const THIN: &str = "
1 0 1 1 90
2 0 30 420 0
3 0 5000 2000 0
4 0 200 200 0
5 0 4000 0 0
6 0 4000 0 0
7 0 300 600 0
7 1 300 600 0
8 0 300 600 0
8 1 300 600 0
9 0 0 0 0
9 1 0 0 0
9 2 0 0 0
9 3 0 0 0";

pub fn rows(text: &str) -> Vec<Vec<u32>> {
    text.lines()
        .skip(1)
        .map(|row| row.split(' ').map(|field| field.parse().unwrap()).collect())
        .collect()
}

pub fn bytes(rows: &[Vec<u32>]) -> Vec<u8> {
    let mut bytes = Vec::new();
    for row in rows {
        bytes.extend((row[0] as u16).to_le_bytes());
        bytes.extend((row[1] as u16).to_le_bytes());
        bytes.extend(row[2..5].iter().flat_map(|field| field.to_le_bytes()));
    }
    bytes
}

pub fn floor(text: &str) -> Vec<u8> {
    bytes(&rows(text))
}

pub fn record(text: &str) -> Vec<u8> {
    floor(&format!("\n{text}"))
}

/// The floor with one number replaced; column 0 is the kind, 1 the index, 2 to 4 are a, b, c.
pub fn edited(text: &str, row: usize, column: usize, number: u32) -> Vec<u8> {
    let mut rows = rows(text);
    rows[row][column] = number;
    bytes(&rows)
}

#[test]
fn a_record_is_16_bytes_little_endian() {
    assert_eq!(
        record("4 258 1500 67305985 4294967295"),
        [4, 0, 2, 1, 220, 5, 0, 0, 1, 2, 3, 4, 255, 255, 255, 255]
    );
}

#[test]
fn a_floor_is_written_and_read_in_the_order_of_01() {
    let mut one_bay = Floor::good(1, 1);
    (one_bay.cx, one_bay.cy) = (400, 400);
    (one_bay.x_spans, one_bay.y_spans) = (vec![4_000], vec![4_000]);
    assert_eq!(one_bay.bytes(), floor(ONE_BAY));
    assert_eq!(Floor::of(&floor(ONE_BAY)), Some(one_bay));

    let mut two_by_one = Floor::good(2, 1);
    two_by_one.t = 180;
    (two_by_one.fc, two_by_one.fy) = (25, 280);
    (two_by_one.dead, two_by_one.live) = (6_000, 3_000);
    (two_by_one.cx, two_by_one.cy, two_by_one.sides) = (450, 350, 70);
    two_by_one.x_spans = vec![5_000, 6_000];
    two_by_one.y_spans = vec![7_000];
    two_by_one.x_lines = vec![(300, 600), (310, 610)];
    two_by_one.y_lines = vec![(350, 700), (0, 0), (360, 710)];
    two_by_one.offsets = vec![(1, 10), (2, 20), (3, 30), (4, 40), (5, 50), (6, 60)];
    assert_eq!(two_by_one.bytes(), floor(TWO_BY_ONE));
    assert_eq!(Floor::of(&floor(TWO_BY_ONE)), Some(two_by_one));
}
