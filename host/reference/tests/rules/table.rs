//! The table: 01's figures where they stand in it, its order, what holds of every record.

use crate::hand_made::{self, ONE_BAY};
use floor::Floor;
use reference::floor_file::{sizes, Sizes};
use reference::panel::x_line_alphas;
use reference::table::{length, numbers, place, x_record, y_record};
use reference::verdict::judge;

type Numbers = [u32; 16];

fn x_numbers(floor: &Floor, line: u128, span: u128) -> Numbers {
    let bytes = floor.bytes();
    assert_eq!(judge(&bytes), (0, 0), "{floor:?}");
    let record = x_record(sizes(&bytes), line, span);
    numbers(&bytes)[place(record)].try_into().unwrap()
}

fn y_numbers(floor: &Floor, line: u128, span: u128) -> Numbers {
    let bytes = floor.bytes();
    assert_eq!(judge(&bytes), (0, 0), "{floor:?}");
    let record = y_record(sizes(&bytes), line, span);
    numbers(&bytes)[place(record)].try_into().unwrap()
}

fn bays(x_span: u32, y_span: u32, cx: u32, loads: (u32, u32)) -> Floor {
    Floor {
        dead: loads.0,
        live: loads.1,
        cx,
        x_spans: vec![x_span; 3],
        y_spans: vec![y_span; 4],
        ..Floor::clear(3, 4)
    }
}

fn with_beams(floor: Floor, t: u32, beam: (u32, u32)) -> Floor {
    Floor {
        t,
        x_lines: vec![beam; 5],
        y_lines: vec![beam; 4],
        ..floor
    }
}

/// "*D 7,000, L 2,500, W 3,800, ln 4,700: Mo 130,111." and "*A 0: 6000, 7500." in an inner span: three
/// quarters of 65·130,111 and six tenths of 35·130,111.
#[test]
fn first_static_moment_of_01() {
    let floor = bays(5_000, 3_800, 300, (7_000, 2_500));
    let expected = [
        130_111, 8_457_215, 6_342_911, 2_114_304, 0, 6_342_911, 4_553_885, 2_732_331, 1_821_554, 0,
        2_732_331, 8_457_215, 6_342_911, 2_114_304, 0, 6_342_911,
    ];
    assert_eq!(x_numbers(&floor, 1, 1), expected);
    assert_eq!(y_numbers(&floor.transposed(), 1, 1), expected);
}

/// "*2,500, 3,000, 5,000, 5,600: 152,880." in an end span without beams: 26, 52 and 70 percent; all of
/// the outer negative in the column strip.
#[test]
fn second_static_moment_of_01() {
    let floor = bays(6_000, 5_000, 400, (2_500, 3_000));
    let outer = [3_974_880, 3_974_880, 0, 0, 3_974_880];
    let between = [7_949_760, 4_769_856, 3_179_904, 0, 4_769_856];
    let inner = [10_701_600, 8_026_200, 2_675_400, 0, 8_026_200];
    let first = [&[152_880][..], &outer, &between, &inner].concat();
    let last = [&[152_880][..], &inner, &between, &outer].concat();
    assert_eq!(x_numbers(&floor, 2, 0)[..], first);
    assert_eq!(x_numbers(&floor, 2, 2)[..], last);
}

/// Inside beam 350×700, W 6,000, t 165: by 02, Two, α 79,013. "*A 10000, R 7894: 8131 between and inner."
/// "*Total 38,290,000, part 8131, A 10000: 31,133,599; 7,156,401; 26,463,559; 4,670,040."
/// The loads and columns are such that Mo is 547,000, 70 percent of which are that total.
#[test]
fn section_of_01() {
    let floor = bays(7_600, 6_000, 930, (6_000, 5_746));
    let floor = with_beams(floor, 165, (350, 700));
    assert_eq!(x_line_alphas(&floor.bytes())[1..4], [79_013; 3]);
    let found = x_numbers(&floor, 1, 0);
    assert_eq!(found[0], 547_000);
    assert_eq!(
        found[6..],
        [
            31_179_000, 25_351_644, 5_827_356, 21_548_897, 3_802_747, 38_290_000, 31_133_599,
            7_156_401, 26_463_559, 4_670_040
        ]
    );
    assert_eq!(x_numbers(&floor, 2, 2)[1..6], found[11..]);
}

/// "*Outer 300×600, t 180, l2 6,000: T 1,288,509,120,000, B 7,364." With A 10000 and R 7894 that is
/// 10000 − 7364·0.7473/10 = 9449.7 of 10000 rounded down.
#[test]
fn outer_beam_of_01() {
    let floor = bays(7_600, 6_000, 400, (5_000, 2_000));
    let floor = with_beams(floor, 180, (300, 600));
    let outer = [5_723_136, 5_407_791, 315_345, 4_596_622, 811_169];
    assert_eq!(
        x_numbers(&floor, 1, 0)[..6],
        [&[357_696], &outer[..]].concat()
    );
    assert_eq!(x_numbers(&floor, 3, 2)[11..], outer);
}

/// "*R 20000, B 25000: 4500 thrice. *R 5000: 9000 thrice." in bays of 3,000 by 6,000, on inner lines as
/// on outer ones, where l2 is the whole span too.
#[test]
fn parts_of_01() {
    let floor = bays(3_000, 6_000, 400, (5_000, 2_000));
    let floor = with_beams(floor, 150, (600, 800));
    let assert_parts = |found: Numbers, part: u32| {
        for section in found[1..].chunks(5) {
            assert!(section[0] > 0);
            let column = u64::from(section[0]) * u64::from(part) / 10_000;
            assert_eq!(u64::from(section[1]), column);
        }
    };
    for line in 0..=4 {
        assert_parts(x_numbers(&floor, line, 0), 4_500);
        assert_parts(x_numbers(&floor, line, 2), 4_500);
    }
    for line in 0..=3 {
        assert_parts(y_numbers(&floor, line, 0), 9_000);
        assert_parts(y_numbers(&floor, line, 3), 9_000);
    }
}

/// "On a fully restrained side the outer negative spreads evenly instead". Between 6,000 and 4,000 wc is
/// 1250 + 1000 of 5000, beside the outer line 1250 + 200 of 3200; 65·121,670 and 65·77,869.
#[test]
fn restrained_sides() {
    let mut floor = bays(5_000, 6_000, 400, (5_000, 2_000));
    floor.y_spans = vec![6_000, 4_000, 5_000, 5_000];
    floor.sides = 2;
    let inside = [121_670, 7_908_550, 3_558_847, 4_349_703, 0, 3_558_847];
    assert_eq!(x_numbers(&floor, 1, 0)[..6], inside);
    let outer = [77_869, 5_061_485, 2_293_485, 2_768_000, 0, 2_293_485];
    assert_eq!(x_numbers(&floor, 0, 0)[..6], outer);
    // The inner end has its part of 7500, and the east side is not restrained.
    assert_eq!(x_numbers(&floor, 1, 0)[12], 7_908_550 * 3 / 4);
    assert_eq!(x_numbers(&floor, 1, 2)[11], 26 * 121_670);
}

/// "Unrestrained": nothing at the outer end, 63 and 75 percent.
#[test]
fn unrestrained_sides() {
    let mut floor = bays(6_000, 5_000, 400, (2_500, 3_000));
    floor.sides = 16;
    let found = y_numbers(&floor, 1, 0);
    let mo = found[0];
    assert_eq!(found[1..6], [0; 5]);
    assert_eq!((found[6], found[11]), (63 * mo, 75 * mo));
    assert_eq!(y_numbers(&floor, 1, 3)[11], 26 * mo);
}

/// "16·((ny+1)nx+(nx+1)ny) numbers"; "x frames come first (line j, span i at j·nx + i), then y frames
/// ((ny+1)·nx + i·ny + j)".
#[test]
fn order_and_length() {
    for (nx, ny, expected) in [(1, 1, 64), (3, 3, 384), (3, 4, 496), (12, 12, 4_992)] {
        assert_eq!(length(Sizes { nx, ny, t: 200 }), expected);
    }
    let sizes = Sizes {
        nx: 3,
        ny: 4,
        t: 200,
    };
    let mut records = Vec::new();
    for line in 0..=4 {
        records.extend((0..3).map(|span| x_record(sizes, line, span)));
    }
    for line in 0..=3 {
        records.extend((0..4).map(|span| y_record(sizes, line, span)));
    }
    assert_eq!(records, Vec::from_iter(0..31));
    assert_eq!(place(30), 480..496);
}

/// A floor that tells its lines, spans and sides apart.
fn mixed() -> Floor {
    Floor {
        t: 180,
        cx: 450,
        cy: 600,
        sides: 2 + 64,
        x_spans: vec![4_800, 5_200, 6_000, 5_600],
        y_spans: vec![4_600, 5_400, 5_000],
        ..Floor::good(4, 3)
    }
    .with_beams_everywhere()
}

/// No rule tells x from y: with both changed round the y frames come first.
#[test]
fn table_of_a_floor_transposed() {
    let floor = mixed();
    assert_eq!(judge(&floor.bytes()), (0, 0));
    let table = numbers(&floor.bytes());
    let (x_frames, y_frames) = table.split_at(16 * 4 * 4);
    let transposed = numbers(&floor.transposed().bytes());
    assert_eq!(transposed, [y_frames, x_frames].concat());
}

/// No rule tells west from east: with both changed round low ends and high ends are.
#[test]
fn table_of_a_floor_mirrored() {
    let floor = mixed();
    let mut mirrored = floor.clone();
    mirrored.sides = 4 * 2 + 64;
    mirrored.x_spans.reverse();
    mirrored.y_lines.reverse();
    for line in 0..=3 {
        for span in 0..4 {
            let found = x_numbers(&mirrored, line, 3 - span);
            let (mo, sections) = found.split_at(1);
            let expected = [mo, &sections[10..], &sections[5..10], &sections[..5]].concat();
            assert_eq!(x_numbers(&floor, line, span)[..], expected);
        }
    }
    for line in 0..=4 {
        for span in 0..3 {
            let expected = y_numbers(&mirrored, 4 - line, span);
            assert_eq!(y_numbers(&floor, line, span), expected);
        }
    }
}

/// "Verdict not 0: all of them are 0."
#[test]
fn zeros_where_a_limit_is_broken() {
    assert_eq!(numbers(&hand_made::floor(ONE_BAY)), [0; 64]);
    let mut floor = Floor::clear(3, 3);
    assert!(numbers(&floor.bytes()).iter().any(|&number| number > 0));
    floor.live = 10_001;
    assert_eq!(numbers(&floor.bytes()), [0; 384]);
}

/// The largest numbers of the largest floor fit: 75·Mo of 12,000 by 12,000 with all the load.
#[test]
fn largest_numbers() {
    let mut floor = Floor::clear(3, 3);
    floor.t = 500;
    (floor.cx, floor.cy) = (200, 200);
    (floor.dead, floor.live, floor.sides) = (30_000, 50_000, 1);
    floor.x_spans = vec![12_000; 3];
    floor.y_spans = vec![12_000; 3];
    let found = x_numbers(&floor, 1, 0);
    assert_eq!(found[0], 24_227_760);
    assert_eq!(found[11], 1_817_082_000);
}
