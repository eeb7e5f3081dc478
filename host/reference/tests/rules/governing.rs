//! "The larger moment at each column" (02, One).

use crate::hand_made::{self, ONE_BAY};
use floor::Floor;
use reference::floor_file::{sizes, Sizes};
use reference::governing::{length, numbers, place, supports, supports_next_to, Face, Support};
use reference::opening::open;
use reference::table;
use reference::verdict::judge;
use std::collections::BTreeSet;
use std::ops::RangeInclusive;

/// Of the example garage, 5 by 4 bays with beams everywhere, as example/garage.sheet prints it.
fn garage() -> Vec<u32> {
    let sheet = include_str!("../../../../example/garage.sheet");
    let records = sheet.lines().skip(1);
    let numbers = records.flat_map(|record| record.split(' ').map(|word| word.parse().unwrap()));
    numbers.collect()
}

const GARAGE: Sizes = Sizes {
    nx: 5,
    ny: 4,
    t: 200,
};

fn assert_governing(table: &[u32], support: u128, expected: Face) {
    let governing = numbers(GARAGE, table);
    assert_eq!(governing[place(support)], expected, "support {support}");
}

/// "an outer support has one face": the ends of x lines 0 and 4, and of y lines 0 and 5. The x lines have
/// six supports each, 30 in all, and the y lines five.
#[test]
fn outer_supports_of_the_garage() {
    let table = garage();
    assert_governing(&table, 0, [3893760, 3435853, 457907, 2920475, 515378]);
    assert_governing(&table, 5, [3893760, 3435853, 457907, 2920475, 515378]);
    assert_governing(&table, 24, [4133376, 3640677, 492699, 3094575, 546102]);
    assert_governing(&table, 30, [3624192, 3137100, 487092, 2666535, 470565]);
    assert_governing(&table, 34, [4170528, 3651297, 519231, 3103602, 547695]);
    assert_governing(&table, 59, [4170528, 3651297, 519231, 3103602, 547695]);
}

/// "from the face with the larger total": on x line 0 17,035,200 ends span 0 and 19,140,290 begins span
/// 1; 20,919,860 ends span 2 and 19,140,290 begins span 3. On y line 1 30,390,360 ends span 0 and
/// 39,414,180 begins span 1; 39,414,180 ends span 2 and 34,971,580 begins span 3.
#[test]
fn supports_of_the_garage_with_unlike_faces() {
    let table = garage();
    let of_x_line_0 = [19140290, 15312232, 3828058, 13015397, 2296835];
    assert_governing(&table, 1, of_x_line_0);
    assert_governing(&table, 3, [20919860, 16945086, 3974774, 14403323, 2541763]);
    assert_governing(&table, 4, of_x_line_0);
    let of_y_line_1 = [39414180, 29726174, 9688006, 25267247, 4458927];
    assert_governing(&table, 36, of_y_line_1);
    assert_governing(&table, 38, of_y_line_1);
}

/// "the lower span's on a tie": at support 2 of y line 0 both faces have 20,563,920. With other parts
/// in one of them, that of the lower span, record 26, is still the one that counts.
#[test]
fn a_tie_in_the_garage() {
    let mut table = garage();
    let tie = [20563920, 15774583, 4789337, 13408395, 2366188];
    assert_governing(&table, 32, tie);
    table[table::place(27)][2..6].copy_from_slice(&[1, 2, 3, 4]);
    assert_governing(&table, 32, tie);
    table[table::place(26)][12..16].copy_from_slice(&[5, 6, 7, 8]);
    assert_governing(&table, 32, [20563920, 5, 6, 7, 8]);
    // No tie any more.
    table[table::place(27)][1] += 1;
    assert_governing(&table, 32, [20563921, 1, 2, 3, 4]);
}

/// "parts taken from the face with the larger total", whatever they are.
#[test]
fn all_five_are_from_one_face() {
    let mut table = garage();
    // Support 1 of x line 0: the lower span's face has every part larger, and the smaller total.
    table[table::place(0)][11..16].copy_from_slice(&[19140289, 99, 99, 99, 99]);
    table[table::place(1)][1..6].copy_from_slice(&[19140290, 1, 2, 3, 4]);
    assert_governing(&table, 1, [19140290, 1, 2, 3, 4]);
}

/// A clear floor on which 70·Mo of the end spans is 65·Mo of the inner one, by the rounding of Mo.
///
/// On x line 1, W 6,000: 15600·6000·4240²/80000000000 = 21,033.8 and 4400² gives 22,651.2; 70·21,034 =
/// 65·22,652 = 1,472,380. R is 12,931 and 12,500, A is 10,000: the parts are 6,620 and 6,750.
#[test]
fn a_tie_of_unlike_faces() {
    let mut floor = Floor::clear(3, 3).with_beams_everywhere();
    (floor.dead, floor.live) = (1_300, 0);
    floor.x_spans = vec![4_640, 4_800, 4_640];
    let floor = floor.bytes();
    let (mut table, mut governing) = ([0; 384], [0; 160]);
    assert_eq!(open(&floor, &mut table, &mut governing), (0, 0));
    let [of_end_span, of_inner_span] = [
        [1472380, 974715, 497665, 828507, 146208],
        [1472380, 993856, 478524, 844777, 149079],
    ];
    // Records 3 to 5, supports 4 to 7.
    assert_eq!(table[table::place(3)][11..], of_end_span);
    assert_eq!(table[table::place(4)][1..6], of_inner_span);
    assert_eq!(governing[place(5)], of_end_span);
    assert_eq!(governing[place(6)], of_inner_span);
}

/// "x frames first by line then support": counted by hand for 3 by 4 bays. x lines 0 to 4 have four
/// supports each, y lines 0 to 3 five.
#[test]
fn the_order_of_supports() {
    let sizes = Sizes {
        nx: 3,
        ny: 4,
        t: 200,
    };
    let all = supports(sizes);
    assert_eq!(all.len(), 40);
    assert_eq!(length(sizes), 200);
    let support = |number, lower_span, higher_span| Support {
        number,
        lower_span,
        higher_span,
    };
    for expected in [
        support(0, None, Some(0)),
        support(1, Some(0), Some(1)),
        support(3, Some(2), None),
        support(4, None, Some(3)),
        support(18, Some(13), Some(14)),
        support(19, Some(14), None),
        support(20, None, Some(15)),
        support(24, Some(18), None),
        support(25, None, Some(19)),
        support(38, Some(29), Some(30)),
        support(39, Some(30), None),
    ] {
        assert_eq!(all[expected.number as usize], expected);
    }
}

/// 12 by 12 bays: 13 lines with 13 supports each way.
#[test]
fn the_longest_slice() {
    let t = 200;
    let sizes = |nx, ny| Sizes { nx, ny, t };
    assert_eq!(length(sizes(12, 12)), 1_690);
    assert_eq!(length(sizes(1, 1)), 40);
}

fn assert_next_to(records: &[u128], expected: &[RangeInclusive<u128>]) {
    let sizes = Sizes {
        nx: 3,
        ny: 4,
        t: 200,
    };
    let found = supports_next_to(sizes, records);
    let found: Vec<u128> = found.iter().map(|support| support.number).collect();
    let expected: BTreeSet<u128> = expected.iter().cloned().flatten().collect();
    assert_eq!(found, Vec::from_iter(expected), "{records:?}");
}

/// "only supports next to a written record": those at both of its ends.
#[test]
fn supports_next_to_records() {
    assert_next_to(&[], &[]);
    assert_next_to(&[0], &[0..=1]);
    assert_next_to(&[2], &[2..=3]);
    assert_next_to(&[0, 2], &[0..=3]);
    assert_next_to(&[3, 4, 5], &[4..=7]);
    assert_next_to(&[15], &[20..=21]);
    assert_next_to(&[18, 30], &[23..=24, 38..=39]);
    assert_next_to(&Vec::from_iter(0..31), &[0..=39]);
}

/// No rule tells x from y: with both changed round the y frames come first.
#[test]
fn supports_of_a_floor_transposed() {
    let floor = Floor {
        sides: 2 + 64,
        x_spans: vec![4_800, 5_200, 6_000, 5_600],
        y_spans: vec![4_600, 5_400, 5_000],
        ..Floor::good(4, 3)
    }
    .with_beams_everywhere();
    let of = |floor: &Floor| {
        let bytes = floor.bytes();
        assert_eq!(judge(&bytes), (0, 0));
        numbers(sizes(&bytes), &table::numbers(&bytes))
    };
    let governing = of(&floor);
    let (x_frames, y_frames) = governing.split_at(5 * 4 * 5);
    assert_eq!(of(&floor.transposed()), [y_frames, x_frames].concat());
}

/// "All zero when the verdict is not 0."
#[test]
fn zeros_where_a_limit_is_broken() {
    let floor = hand_made::floor(ONE_BAY);
    assert_eq!(judge(&floor), (0, 1));
    let table = table::numbers(&floor);
    assert_eq!(numbers(sizes(&floor), &table), [0; 40]);
}
