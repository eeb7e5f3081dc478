//! "The verdict": each limit alone broken and, "equality always passes", just not.

use crate::hand_made::{self, ONE_BAY, THIN, TWO_BY_ONE};
use crate::stiffness::{alpha_by_001, line};
use floor::{Floor, NO_BEAM};
use reference::refusals::refusal;
use reference::verdict::{judge, too_unlike};

/// No limit tells x from y, so each holds both ways round.
fn assert_verdict(floor: &Floor, expected: u128) {
    assert_eq!(judge(&floor.bytes()), (0, expected), "{floor:?}");
    let transposed = floor.transposed();
    assert_eq!(judge(&transposed.bytes()), (0, expected), "{transposed:?}");
}

/// "prints only `0 1`", then the two other typed floors. The thickness breaks both: 4,000 less 200
/// asks for 3800·1.1/45 = 92.9 of 90, 7,000 less 350 for 6650/36 = 184.7 of 180.
#[test]
fn typed_floors() {
    assert_eq!(judge(&hand_made::floor(ONE_BAY)), (0, 1));
    assert_eq!(judge(&hand_made::floor(THIN)), (0, 1 + 64));
    assert_eq!(judge(&hand_made::floor(TWO_BY_ONE)), (0, 1 + 64));
}

/// "nx or ny below 3."
#[test]
fn limit_1() {
    for (nx, ny, expected) in [
        (1, 1, 1),
        (1, 3, 1),
        (2, 2, 1),
        (2, 3, 1),
        (2, 12, 1),
        (3, 3, 0),
        (3, 4, 0),
        (12, 12, 0),
    ] {
        assert_verdict(&Floor::clear(nx, ny), expected);
    }
}

/// "in a panel, longer span > 2·shorter." Each panel in turn is the only one of its length.
#[test]
fn limit_2() {
    for i in 0..4 {
        for j in 0..3 {
            let mut floor = Floor::clear(4, 3);
            floor.y_spans = vec![3_020; 3];
            floor.y_spans[j] = 3_000;
            assert_verdict(&floor, 0);
            floor.x_spans[i] = 6_020;
            assert_verdict(&floor, 2);
            floor.y_spans[j] = 3_020;
            assert_verdict(&floor, 0);
        }
    }
}

/// "for neighbouring spans in a direction, 3(longer − shorter) > longer."
/// "Neighbours 6,000 and 4,000 pass, 3,980 breaks." Each two neighbours in turn are the only ones to
/// differ so much: next to 5,000 both pass.
#[test]
fn limit_4() {
    for low in 0..4 {
        for (longer, shorter) in [(low, low + 1), (low + 1, low)] {
            let mut floor = Floor::clear(5, 3);
            floor.x_spans = vec![5_000; 5];
            floor.x_spans[longer] = 6_000;
            floor.x_spans[shorter] = 4_000;
            assert_verdict(&floor, 0);
            floor.x_spans[shorter] = 3_980;
            assert_verdict(&floor, 4);
        }
    }
}

#[test]
fn limit_4_is_for_neighbours_in_a_direction() {
    let mut floor = Floor::clear(3, 3);
    floor.x_spans = vec![6_000, 5_000, 3_980];
    assert_verdict(&floor, 0);
    let mut floor = Floor::clear(3, 3);
    floor.y_spans = vec![3_980; 3];
    assert_verdict(&floor, 0);
}

/// "Offset 600 on 6,000 passes, 601 breaks", at every column, and 500 on the 5,000 across.
#[test]
fn limit_8() {
    let mut floor = Floor::clear(3, 4);
    floor.y_spans = vec![5_000; 4];
    floor.offsets = vec![(600, 500); 20];
    assert_verdict(&floor, 0);
    for column in 0..20 {
        let mut broken = floor.clone();
        broken.offsets[column] = (601, 0);
        assert_verdict(&broken, 8);
        broken.offsets[column] = (0, 501);
        assert_verdict(&broken, 8);
    }
}

/// "ten times an offset exceeds a span adjoining that column in its direction": inside the shorter of
/// two decides, be it the higher one as here along x or the lower one as along y.
#[test]
fn limit_8_looks_at_every_adjoining_span() {
    let mut floor = Floor::clear(3, 4);
    floor.x_spans = vec![6_000, 5_000, 4_000];
    floor.y_spans = vec![4_000, 4_800, 5_400, 6_000];
    let along_x = [600, 500, 400, 400];
    let along_y = [400, 400, 480, 540, 600];
    let row = |y| along_x.map(|x| (x, y));
    floor.offsets = along_y.into_iter().flat_map(row).collect();
    assert_verdict(&floor, 0);
    for column in 0..20 {
        let mut broken = floor.clone();
        broken.offsets[column].0 += 1;
        assert_verdict(&broken, 8);
        let mut broken = floor.clone();
        broken.offsets[column].1 += 1;
        assert_verdict(&broken, 8);
    }
}

/// "L > 2D." "L = 2D passes."
#[test]
fn limit_16() {
    for (dead, live, expected) in [
        (5_000, 0, 0),
        (5_000, 9_999, 0),
        (5_000, 10_000, 0),
        (5_000, 10_001, 16),
        (1_000, 2_000, 0),
        (1_000, 2_001, 16),
        (25_000, 50_000, 0),
        (24_999, 50_000, 16),
    ] {
        let mut floor = Floor::clear(3, 3);
        (floor.dead, floor.live) = (dead, live);
        assert_verdict(&floor, expected);
    }
}

#[test]
fn five_times_as_stiff_passes() {
    for (p, q, expected) in [
        (1, 1, false),
        (5, 1, false),
        (6, 1, true),
        (1_000_000_000_000, 200_000_000_000, false),
        (1_000_000_000_001, 200_000_000_000, true),
        (1_000_000_000_000, 199_999_999_999, true),
    ] {
        assert_eq!(too_unlike(p, q), expected, "{p} {q}");
        assert_eq!(too_unlike(q, p), expected, "{q} {p}");
    }
}

/// Width and depth of the beams on outer lines, and on inner ones.
pub type Beams = [(u32, u32); 2];

/// Under a slab of 200, over spans of 3,000 and between columns of 1,500 all α are 6,650.
pub const WEAK: Beams = [(350, 310), (645, 280)];
/// There all α are 33,250, five times as much.
pub const STIFF: Beams = [(505, 460), (890, 420)];

/// With W 2,250 outside and 3,000 inside; 17 or 9 and 56 or 32 for each mm of width.
#[test]
fn the_weak_and_the_stiff() {
    for ([outer, inner], expected) in [(WEAK, 6_650), (STIFF, 33_250)] {
        for (is_outer, (width, depth), frame_width) in [(true, outer, 2_250), (false, inner, 3_000)]
        {
            let alpha = |width: u32| {
                let line = line(is_outer, width.into(), depth.into());
                alpha_by_001(line, frame_width, 200)
            };
            assert_eq!(alpha(width), expected);
            assert!(alpha(width - 1) < expected && expected < alpha(width + 1));
        }
    }
}

fn lines(count: usize, [outer, inner]: Beams) -> Vec<(u32, u32)> {
    let mut lines = vec![inner; count];
    lines[0] = outer;
    lines[count - 1] = outer;
    lines
}

/// Columns of half a span.
pub fn even(nx: usize, ny: usize, spans: (u32, u32), beams: (Beams, Beams)) -> Floor {
    let (x_span, y_span) = spans;
    let (on_x_lines, on_y_lines) = beams;
    Floor {
        cx: x_span / 2,
        cy: y_span / 2,
        x_spans: vec![x_span; nx],
        y_spans: vec![y_span; ny],
        x_lines: lines(ny + 1, on_x_lines),
        y_lines: lines(nx + 1, on_y_lines),
        ..Floor::good(nx, ny)
    }
}

/// "p > 5q or q > 5p": p = 5q in every panel, until a line has a beam that is wider or narrower.
#[test]
fn limit_32() {
    let floor = even(3, 4, (3_000, 3_000), (STIFF, WEAK));
    assert_verdict(&floor, 0);
    for x_line in 0..5 {
        let mut floor = floor.clone();
        floor.x_lines[x_line].0 += 1;
        assert_verdict(&floor, 32);
        floor.x_lines[x_line].0 -= 2;
        assert_verdict(&floor, 0);
    }
    for y_line in 0..4 {
        let mut floor = floor.clone();
        floor.y_lines[y_line].0 -= 1;
        assert_verdict(&floor, 32);
        floor.y_lines[y_line].0 += 2;
        assert_verdict(&floor, 0);
    }
}

/// Each panel in turn is the only one with its α of 6,650 on both y lines and 33,250 or a little more on
/// both x lines. All other lines have beams of 400 by 400, α 10000·3880/2250 = 17,244 outside and
/// 10000·4400/3000 = 14,666 inside, between the two.
#[test]
fn limit_32_in_a_single_panel() {
    for i in 0..4 {
        for j in 0..4 {
            let mut floor = even(4, 4, (3_000, 3_000), ([(400, 400); 2], [(400, 400); 2]));
            for line in [0, 1] {
                floor.x_lines[j + line] = lines(5, STIFF)[j + line];
                floor.y_lines[i + line] = lines(5, WEAK)[i + line];
            }
            assert_verdict(&floor, 0);
            floor.x_lines[j].0 += 1;
            assert_verdict(&floor, 32);
        }
    }
}

/// "p = (sum of α of its two x lines)·Y², q = (sum of α of its two y lines)·X²". The x lines have 6,093 =
/// 9·677, W being 1,500 and 2,000, the y lines 13,540 = 20·677: 6093·2000² = 24.372·10⁹ is a fifth of
/// 13540·3000² = 121.86·10⁹.
#[test]
fn limit_32_takes_the_spans_across() {
    let beams = ([(580, 230), (315, 290)], [(686, 320), (450, 380)]);
    let floor = even(3, 3, (3_000, 2_000), beams);
    assert_verdict(&floor, 0);
    for (on_x_lines, on_y_lines, expected) in [(0, 1, 32), (-1, 0, 32), (1, 0, 0), (0, -1, 0)] {
        let mut floor = floor.clone();
        for line in 0..4 {
            let (x, y) = (&mut floor.x_lines[line].0, &mut floor.y_lines[line].0);
            *x = x.strict_add_signed(on_x_lines);
            *y = y.strict_add_signed(on_y_lines);
        }
        assert_verdict(&floor, expected);
    }
}

/// With cy 300 W of an outer x line is 1,650, and α of 467 by 427 there 33,250 as inside. Clear spans of
/// 1,500 and 2,700 in place of the spans would make p more than three times as large.
#[test]
fn limit_32_takes_whole_spans() {
    for (width, expected) in [(467, 0), (468, 32)] {
        let mut floor = even(3, 3, (3_000, 3_000), (STIFF, WEAK));
        floor.cy = 300;
        floor.x_lines[0] = (width, 427);
        floor.x_lines[3] = (width, 427);
        assert_verdict(&floor, expected);
    }
}

/// "beams everywhere, and in a panel": between edge beams alone the panels halfway along a side have a
/// beam in one direction only.
#[test]
fn limit_32_is_for_beams_everywhere() {
    let mut floor = Floor::clear(3, 3).with_beams("1001", "1001");
    assert_verdict(&floor, 0);
    floor.x_lines[0] = (1_000, 1_500);
    assert_verdict(&floor, 0);
}

/// "Where the first two coincide the floor counts as beams everywhere." One bay with four outer beams.
#[test]
fn limit_32_where_every_line_is_outer() {
    let mut floor = even(1, 1, (3_000, 3_000), (STIFF, WEAK));
    assert_verdict(&floor, 1);
    floor.x_lines[0].0 += 1;
    assert_verdict(&floor, 1 + 32);
}

/// "t below some panel's least thickness." 5600/30 = 186.7 without beams, 5600/33 = 169.7 with edge
/// beams.
#[test]
fn limit_64() {
    for (t, expected) in [(90, 64), (186, 64), (187, 0), (500, 0)] {
        let mut floor = Floor::clear(3, 3);
        floor.t = t;
        assert_verdict(&floor, expected);
    }
    for (t, expected) in [(169, 64), (170, 0)] {
        let mut floor = Floor::clear(3, 3).with_beams("1001", "1001");
        floor.t = t;
        assert_verdict(&floor, expected);
    }
}

/// A single long bay, in turn the first, an inner and the last: 7600/30 = 253.3.
#[test]
fn limit_64_in_every_bay() {
    for bay in 0..4 {
        for (t, expected) in [(253, 64), (254, 0)] {
            let mut floor = Floor::clear(4, 3);
            floor.t = t;
            floor.x_spans[bay] = 8_000;
            assert_verdict(&floor, expected);
        }
    }
}

/// Inner beams so weak that the one inner panel has S ≤ 8000, about 4·260, and asks for 5600/33 =
/// 169.7; outer beams so stiff that all others have S > 80000 and ask for 5600·1.1/45 = 136.9. These
/// break 32.
#[test]
fn limit_64_by_the_inner_panel_alone() {
    for (t, expected) in [(169, 32 + 64), (170, 32)] {
        let mut floor = Floor::clear(3, 3);
        floor.t = t;
        floor.x_lines = vec![(1_000, 1_500), (150, 171), (150, 171), (1_000, 1_500)];
        floor.y_lines = floor.x_lines.clone();
        assert_verdict(&floor, expected);
    }
}

/// "This amends verdict 64": a slab of 200 with α 7,999 (901 by 279) or 8,000 (967 by 273) on one outer x line,
/// W being 3,200, and stiff beams on the others. Between edge beams alone 6000/30 = 200 and 6020/30 = 200.7,
/// while 6020/33 = 182.4. With beams everywhere 01 asks for 180.8 and 181.1 by 8,040 and 8,060 clear to 5,600:
/// ten percent more than 181 and 182 are 199.1 and 200.2.
#[test]
fn limit_64_at_weak_edges() {
    const STIFF: (u32, u32) = (400, 650);
    for (inner, x_span, weak, expected) in [
        (NO_BEAM, 6_400, true, 0),
        (NO_BEAM, 6_420, true, 64),
        (NO_BEAM, 6_420, false, 0),
        (STIFF, 8_440, true, 0),
        (STIFF, 8_460, true, 64),
        (STIFF, 8_460, false, 0),
    ] {
        for line in [0, 3] {
            let mut floor = Floor::clear(3, 3);
            floor.x_spans = vec![x_span; 3];
            floor.x_lines = vec![STIFF, inner, inner, STIFF];
            floor.y_lines = floor.x_lines.clone();
            floor.x_lines[line] = if weak { (901, 279) } else { (967, 273) };
            assert_verdict(&floor, expected);
        }
    }
}

/// "A sum of what is broken". 12,000 is more than 2·5,000, and 3·(12,000 − 6,000) more than 12,000;
/// 10·501 is more than 5,000; α of y lines is thousands of times that of x lines; 11,800 by 4,800 asks
/// for 223.3.
#[test]
fn all_seven_broken() {
    let mut floor = Floor::clear(2, 1);
    floor.t = 90;
    (floor.cx, floor.cy) = (200, 200);
    (floor.dead, floor.live) = (1_000, 2_001);
    floor.x_spans = vec![12_000, 6_000];
    floor.y_spans = vec![5_000];
    floor.x_lines = vec![(150, 91); 2];
    floor.y_lines = vec![(1_000, 1_500); 3];
    floor.offsets[5] = (0, 501);
    assert_verdict(&floor, 127);
    floor.live = 2_000;
    assert_verdict(&floor, 127 - 16);
    floor.offsets[5] = (0, 500);
    assert_verdict(&floor, 127 - 16 - 8);
    (floor.x_lines, floor.y_lines) = (vec![NO_BEAM; 2], vec![NO_BEAM; 3]);
    assert_verdict(&floor, 127 - 16 - 8 - 32);
    floor.x_spans[1] = 8_000;
    assert_verdict(&floor, 1 + 2 + 64);
    floor.t = 500;
    assert_verdict(&floor, 1 + 2);
}

/// One floor for each refusal from 1 to 7.
pub fn refused() -> Vec<(u128, Vec<u8>)> {
    let mut columns_too_wide = Floor::clear(3, 3);
    columns_too_wide.cy = 610;
    columns_too_wide.y_spans[2] = 1_200;
    let floors = vec![
        (1, hand_made::floor(ONE_BAY)[1..].to_vec()),
        (2, hand_made::edited(ONE_BAY, 0, 4, 89)),
        (3, hand_made::edited(ONE_BAY, 0, 2, 2)),
        (4, hand_made::edited(ONE_BAY, 13, 4, 1)),
        (5, hand_made::edited(ONE_BAY, 1, 3, 421)),
        (6, columns_too_wide.bytes()),
        (7, Floor::clear(3, 3).with_beams("1001", "1000").bytes()),
    ];
    for (number, floor) in &floors {
        assert_eq!(refusal(floor), *number);
    }
    floors
}

/// "A refused opening or change gives verdict 255, which no floor earns"
#[test]
fn refused_floors_get_255() {
    for (number, floor) in refused() {
        assert_eq!(judge(&floor), (number, 255));
    }
    assert_eq!(judge(&[]), (1, 255));
}
