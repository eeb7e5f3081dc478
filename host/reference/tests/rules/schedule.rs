//! "Bar schedule." (02, Five), its depths by "The default depth." (02, Six): floors with widths, moments and bars
//! worked by hand, and what is lent.

use crate::verdict::refused;
use floor::{Floor, NO_BEAM};
use reference::schedule::{bar_and_spacing, each, entries, schedule, Lack, ALWAYS_SUFFICE, BYTES};
use reference::steel::steel;
use reference::table::numbers;
use reference::verdict::judge;
use std::collections::BTreeSet;

const HELD: u8 = 77;

/// Record, section, strip, width, moment, area, bar diameter, spacing.
type Numbers = [u32; 8];

/// As they are written to a buffer with room for any floor's.
#[track_caller]
fn listed(floor: &Floor) -> Vec<Numbers> {
    let mut lent = vec![HELD; ALWAYS_SUFFICE + 1];
    let (refused, count) = schedule(&floor.bytes(), &mut lent);
    assert_eq!(refused, 0, "{floor:?}");
    let (written, past) = lent.split_at(32 * count as usize);
    assert!(past.iter().all(|&byte| byte == HELD));
    let number = |bytes: &[u8]| u32::from_le_bytes(bytes.try_into().unwrap());
    let eight = |entry: &[u8]| [0, 4, 8, 12, 16, 20, 24, 28].map(|at| number(&entry[at..at + 4]));
    written.chunks(32).map(eight).collect()
}

/// Nothing is written whatever is lent.
#[track_caller]
fn assert_refused(floor: &[u8], length: usize, expected: u128) {
    let mut lent = vec![HELD; length];
    assert_eq!(schedule(floor, &mut lent), (expected, 0), "{length} bytes");
    assert_eq!(lent, vec![HELD; length]);
}

/// Every limit kept: 6,000 by 6,000 without beams, columns of 400, t 200, fc 30, fy 420, D 5,000, L 2,000.
///
/// Record 0 is that of an end span on an outer line. W is 3000 + 200, wc 1500 + 200, ln 5,600, and Mo 92000·3200·5600² /
/// 80000000000 = 115404.8. Of 26, 52 and 70 times 115,405 the column strip has all, 0.6 and 0.75: 3,000,530; 3,600,636
/// of 6,001,060; 6,058,762 of 8,078,350.
///
/// On an x frame d is 174. The least areas are 756·1700·200/420000 = 612 and, for 1,500 mm, 540: these carry
/// 2313360·148287600/86700000 = 3,956,665 and 2041200·130842000/76500000 = 3,491,172. For 6,058,762 the column strip
/// takes 947, which carry 3579660·146880600/86700000 = 6,064,389, where 946 carry 3575880·146884800/86700000 =
/// 6,058,158.
///
/// On a y frame d is 162. The least areas carry 2313360·137883600/86700000 = 3,679,058 and 2041200·121662000/76500000 =
/// 3,246,228, still more than 3,600,636 and 2,400,424. For 6,058,762 the column strip takes 1,021, which carry
/// 3859380·136165800/86700000 = 6,061,309, where 1,020 carry 3855600·136170000/86700000 = 6,055,560.
///
/// 79·1700/612 and 79·1500/540 are 219.4, 79·1700/947 is 141.8, 79·1700/1021 is 131.5.
#[test]
fn a_record_by_hand() {
    let outer = [
        [0, 1_700, 3_000_530, 612, 10, 210],
        [1, 1_500, 0, 540, 10, 210],
    ];
    let between = [
        [0, 1_700, 3_600_636, 612, 10, 210],
        [1, 1_500, 2_400_424, 540, 10, 210],
    ];
    let inner = |area, spacing| {
        [
            [0, 1_700, 6_058_762, area, 10, spacing],
            [1, 1_500, 2_019_588, 540, 10, 210],
        ]
    };
    let of_record = |record: u32, sections: [[[u32; 6]; 2]; 3]| {
        let mut expected = Vec::new();
        for (section, strips) in (0..).zip(sections) {
            expected.extend(
                strips.map(|[strip, width, moment, area, diameter, spacing]| {
                    [
                        record, section, strip, width, moment, area, diameter, spacing,
                    ]
                }),
            );
        }
        expected
    };
    let found = listed(&Floor::clear(3, 3));
    assert_eq!(found[..6], of_record(0, [outer, between, inner(947, 140)]));
    // The last span of the last y line has its outer end high.
    assert_eq!(
        found[138..],
        of_record(23, [inner(1_021, 130), between, outer])
    );
}

/// "eight 32-bit numbers little-endian": the first of the records above, 3,000,530 being 0x2dc8d2.
#[test]
fn bytes_by_hand() {
    let mut lent = vec![HELD; 4_608];
    assert_eq!(schedule(&Floor::clear(3, 3).bytes(), &mut lent), (0, 144));
    let first = [
        [0, 0, 0, 0],
        [0, 0, 0, 0],
        [0, 0, 0, 0],
        [0xa4, 0x06, 0, 0],
        [0xd2, 0xc8, 0x2d, 0],
        [0x64, 0x02, 0, 0],
        [10, 0, 0, 0],
        [210, 0, 0, 0],
    ];
    assert_eq!(lent[..32], first.concat());
}

/// "Every section of every span appears once for each strip, in that order": 31 and 312 records of the table.
#[test]
fn order_and_count() {
    for (nx, ny, count) in [(3, 3, 144), (3, 4, 186), (4, 3, 186), (12, 12, 1_872)] {
        let found = listed(&Floor::clear(nx, ny));
        assert_eq!(found.len(), count);
        let mut expected = Vec::new();
        for record in 0..count as u32 / 6 {
            for section in [0, 1, 2] {
                expected.extend([0, 1].map(|strip| [record, section, strip]));
            }
        }
        let places = found.iter().map(|entry| [entry[0], entry[1], entry[2]]);
        assert_eq!(places.collect::<Vec<_>>(), expected);
    }
    assert_eq!(ALWAYS_SUFFICE, 32 * 1_872);
    assert_eq!(BYTES, 32);
}

/// Unlike spans, cx 400, cy 300 and beams on the lines that are marked, of widths that are odd and even.
fn unlike(x_lines: &str, y_lines: &str) -> Floor {
    let beams = |lines: &str, widths: [u32; 4]| {
        let beam = |(marked, width)| match marked {
            '1' => (width, 600),
            _ => NO_BEAM,
        };
        lines.chars().zip(widths).map(beam).collect()
    };
    Floor {
        x_spans: vec![4_400, 5_200, 6_000],
        y_spans: vec![4_800, 5_600, 5_200],
        x_lines: beams(x_lines, [301, 303, 350, 300]),
        y_lines: beams(y_lines, [401, 405, 400, 402]),
        ..Floor::good(3, 3)
    }
}

/// wc of each span on each line, "on each side of the line, a quarter of min(l1, span on that side); past an outer
/// line, half the column": x line 1 lies between 4,800 and 5,600, so that its first span has 1100 + 1100, its second
/// 1200 + 1300, its third 1200 + 1400.
const WC: [[i64; 3]; 8] = [
    [1_250, 1_350, 1_350],
    [2_200, 2_500, 2_600],
    [2_200, 2_600, 2_700],
    [1_250, 1_450, 1_450],
    [1_300, 1_300, 1_300],
    [2_300, 2_400, 2_400],
    [2_400, 2_700, 2_600],
    [1_400, 1_600, 1_500],
];

/// W of each line: 2400 + 150, 2400 + 2800, 2800 + 2600, 2600 + 150 and 2200 + 200, 2200 + 2600, 2600 + 3000,
/// 3000 + 200.
const W: [i64; 8] = [2_550, 5_200, 5_400, 2_750, 2_400, 4_800, 5_600, 3_200];

/// "Column strip width is wc, less the beam's width on an inside line, less half of it, rounded up, on an outer line;
/// middle strip width is W less wc." Half of 301 and of 401 is 151 and 201, half of 300 and of 402 is 150 and 201.
#[test]
fn widths() {
    for (x_lines, y_lines, taken) in [
        ("0000", "0000", [0; 8]),
        ("1001", "1001", [151, 0, 0, 150, 201, 0, 0, 201]),
        ("1111", "1111", [151, 303, 350, 150, 201, 405, 400, 201]),
    ] {
        let mut expected = Vec::new();
        for line in 0..8 {
            for wc in WC[line] {
                expected.extend([[wc - taken[line], W[line] - wc]; 3].concat());
            }
        }
        let found = listed(&unlike(x_lines, y_lines));
        let found: Vec<i64> = found.iter().map(|entry| entry[3].into()).collect();
        assert_eq!(found, expected, "{x_lines} {y_lines}");
    }
}

/// "The moment is the slab part for the column strip and the middle part for the other": of a section's total, column,
/// middle, beam and slab the fifth and the third.
#[test]
fn moments_are_those_of_the_table() {
    for (x_lines, y_lines) in [("0000", "0000"), ("1001", "1001"), ("1111", "1111")] {
        let floor = unlike(x_lines, y_lines);
        let table = numbers(&floor.bytes());
        let sections = table.chunks(16).flat_map(|record| record[1..].chunks(5));
        let expected: Vec<u32> = sections.flat_map(|five| [five[4], five[2]]).collect();
        let found = listed(&floor).into_iter().map(|entry| entry[4]);
        assert_eq!(found.collect::<Vec<_>>(), expected);
    }
}

/// Up to the moment no rule tells x from y: with both changed round the y frames come first.
#[test]
fn a_floor_transposed() {
    let floor = unlike("1111", "1111");
    let rest = |entry: &Numbers| entry[1..5].to_vec();
    let along: Vec<_> = listed(&floor).iter().map(rest).collect();
    let across: Vec<_> = listed(&floor.transposed()).iter().map(rest).collect();
    assert_eq!(across, [&along[72..], &along[..72]].concat());
}

/// Bays of 1,000 with columns of 200 and beams on every line, of one width outside and of another inside. wc is 250 +
/// 100 outside and 250 + 250 inside.
fn short(outer: u32, inner: u32) -> Floor {
    let beams = vec![(outer, 300), (inner, 300), (inner, 300), (outer, 300)];
    Floor {
        t: 125,
        dead: 1_000,
        live: 0,
        cx: 200,
        cy: 200,
        x_spans: vec![1_000; 3],
        y_spans: vec![1_000; 3],
        x_lines: beams.clone(),
        y_lines: beams,
        ..Floor::good(3, 3)
    }
}

/// The column strips of a line: its first, second and third span, three sections each.
fn column_strips(found: &[Numbers], line: usize) -> Vec<Numbers> {
    found[18 * line..18 * (line + 1)]
        .iter()
        .step_by(2)
        .copied()
        .collect()
}

/// Of 350 outside 697/2 and 698/2, rounded up, leave 1; of 500 inside 499 does. 756·125/420000 asks for 1 mm², which
/// carries 3780·(50490 − 4200)/51000 = 3,430 on an x frame and 3780·(44370 − 4200)/51000 = 2,977 on a y frame, and no
/// slab part is above 15 percent of three quarters of 70·96. For 1 mm² 12 mm bars do at 110.
#[test]
fn a_width_of_1() {
    for (outer, inner, lines) in [(697, 150, [0, 3]), (698, 150, [4, 7]), (150, 499, [1, 6])] {
        let found = listed(&short(outer, inner));
        for line in lines {
            for entry in column_strips(&found, line) {
                assert_eq!([entry[3], entry[5], entry[6], entry[7]], [1, 1, 12, 110]);
            }
        }
    }
}

/// "17, a strip width of 0 or less": of 350 outside 699/2, rounded up, and 700/2 leave nothing; of 500 inside 500 does.
#[test]
fn a_width_of_0_or_less() {
    for (outer, inner, place) in [
        (699, 150, 0),
        (700, 150, 0),
        (1_000, 150, 0),
        (150, 500, 18),
        (150, 501, 18),
        (150, 1_000, 18),
    ] {
        let floor = short(outer, inner).bytes();
        assert_eq!(judge(&floor), (0, 0), "{outer} {inner}");
        let lacking = each(&floor);
        assert_eq!(lacking.iter().position(Result::is_err), Some(place));
        assert_eq!(lacking[place], Err(Lack::Width));
        assert_refused(&floor, ALWAYS_SUFFICE, 17);
    }
}

/// On the inside x lines, or y lines, the column strips are 1 mm wide. Every side is fully restrained, so that 65·Mo at
/// an inner end is the largest total there. W is 1,000 and ln 800: Mo is (12D + 16L)/125, rounded up.
fn thick(x_inner: u32, y_inner: u32, dead: u32, live: u32) -> Floor {
    let beams = |inner| vec![(150, 450), (inner, 450), (inner, 450), (150, 450)];
    Floor {
        t: 300,
        dead,
        live,
        sides: 170,
        x_lines: beams(x_inner),
        y_lines: beams(y_inner),
        ..short(150, 150)
    }
}

/// Low end of the inner span on x line 1, record 4, and on y line 1, record 16.
const X_INNER_END: usize = 6 * 4;
const Y_INNER_END: usize = 6 * 16;

/// "no bar that allows a spacing": 2 mm² take 16 mm bars at 100; 3 mm² are too many for any.
///
/// On an x frame d is 274, and 2 mm² carry 7560·(139740 − 8400)/51000 = 19,469. Mo is 332748/125 = 2661.98 or
/// 332760/125 = 2662.08, so that of 65·Mo three quarters and, of these, 15 percent are 19,466 (129,772 less 110,306) or
/// 19,474 (129,821 less 110,347).
///
/// On a y frame d is 262, and 2 mm² carry 7560·(133620 − 8400)/51000 = 18,562. Mo is 317244/125 = 2537.95 or
/// 317256/125 = 2538.05, and the moments are 18,560 (123,727 less 105,167) or 18,567 (123,776 less 105,209).
#[test]
fn no_bar() {
    for (inner_end, record, x_inner, y_inner, dead, moment) in [
        (X_INNER_END, 4, 499, 150, 27_729, 19_466),
        (Y_INNER_END, 16, 150, 499, 26_437, 18_560),
    ] {
        let found = listed(&thick(x_inner, y_inner, dead, 0));
        assert_eq!(found[inner_end], [record, 0, 0, 1, moment, 2, 16, 100]);
        let floor = thick(x_inner, y_inner, dead + 1, 0).bytes();
        assert_eq!(judge(&floor), (0, 0));
        assert_eq!(each(&floor)[inner_end], Err(Lack::Bar));
        assert_refused(&floor, ALWAYS_SUFFICE, 17);
    }
}

/// "no steel area that fits".
///
/// At 274 5 mm² carry 18900·(139740 − 21000)/51000 = 44,003, and 6 strain too little: 224000·6·420 is above
/// 51·1170·30·274. Mo is 752112/125 = 6016.9 or 752128/125 = 6017.02, the moments 44,000 (293,328 less 249,328) and
/// 44,007 (293,377 less 249,370).
///
/// At 262 4 mm² carry 15120·(133620 − 16800)/51000 = 34,633, and 5 already strain too little: 224000·5·420 is
/// 470,400,000 and 51·1170·30·262 469,006,200. Mo is 592000/125 = 4736 or 592016/125 = 4736.1, the moments 34,632
/// (230,880 less 196,248) and 34,640 (230,928 less 196,288).
#[test]
fn no_area() {
    for (inner_end, x_inner, y_inner, live) in [
        (X_INNER_END, 499, 150, 24_507),
        (Y_INNER_END, 150, 499, 14_500),
    ] {
        for (live, lack) in [(live, Lack::Bar), (live + 1, Lack::Area)] {
            let floor = thick(x_inner, y_inner, 30_000, live).bytes();
            assert_eq!(judge(&floor), (0, 0));
            assert_eq!(each(&floor)[inner_end], Err(lack));
            assert_refused(&floor, ALWAYS_SUFFICE, 17);
        }
    }
}

/// The same beams both ways: between the two limits of `no_bar` the y frames alone lack a bar, and the floor is refused
/// 17 where Five had a schedule.
#[test]
fn no_bar_on_y_frames_alone() {
    listed(&thick(499, 499, 26_437, 0));
    for dead in [26_438, 27_729] {
        let floor = thick(499, 499, dead, 0).bytes();
        assert_eq!(judge(&floor), (0, 0));
        let strips = each(&floor);
        assert!(strips[..72].iter().all(Result::is_ok));
        assert_eq!(strips[Y_INNER_END], Err(Lack::Bar));
        assert_refused(&floor, ALWAYS_SUFFICE, 17);
    }
}

/// Floors with light and heavy loads, with thin and thick slabs, in every layout.
fn at_hand() -> Vec<Floor> {
    let loaded = |(t, dead, live)| Floor {
        t,
        dead,
        live,
        ..Floor::clear(3, 4)
    };
    let mut floors: Vec<Floor> = [
        (200, 5_000, 2_000),
        (200, 8_000, 5_000),
        (200, 12_000, 5_000),
        (187, 4_000, 8_000),
        (500, 20_000, 20_000),
    ]
    .map(loaded)
    .into();
    for (x_lines, y_lines) in [("0000", "0000"), ("1001", "1001"), ("1111", "1111")] {
        floors.push(Floor {
            dead: 9_000,
            live: 9_000,
            ..unlike(x_lines, y_lines)
        });
    }
    floors.push(short(697, 499));
    floors.push(thick(499, 150, 27_729, 0));
    floors
}

/// The area, diameter and spacing at this depth, for the width and the moment that the entry has.
fn at_depth(floor: &Floor, entry: &Numbers, d: u32) -> [u32; 3] {
    let [width, moment, t, d] = [entry[3], entry[4], floor.t, d].map(u128::from);
    let (refused, area) = steel(moment, width, t, d, floor.fc.into(), floor.fy.into());
    assert_eq!(refused, 0, "{entry:?}");
    let (diameter, spacing) = bar_and_spacing(width, area, t).expect("a bar");
    [area, diameter, spacing].map(|number| number as u32)
}

/// "In the schedule these are the x frames, and it is shown that their records read as before; y frames keep 0 and are
/// worked afresh." (02, Six) Before, by Five, every area was "the steel answer for that moment and width at d = 0", and
/// 0 stood for t − 26.
#[test]
fn x_records_as_before_and_y_records_afresh() {
    let mut seen = BTreeSet::new();
    for floor in at_hand() {
        let x_entries = 6 * floor.x_spans.len() * floor.x_lines.len();
        for (place, entry) in listed(&floor).iter().enumerate() {
            let five = at_depth(&floor, entry, floor.t - 26);
            if place < x_entries {
                assert_eq!(entry[5..], five, "{floor:?}");
                continue;
            }
            let second_layer = at_depth(&floor, entry, floor.t - 38);
            assert_eq!(entry[5..], second_layer, "{floor:?}");
            let [area, diameter, spacing] = [0, 1, 2].map(|at| five[at] == second_layer[at]);
            seen.insert((area, diameter, spacing));
        }
    }
    // The same by the minimum; more steel at the same bars, at closer ones, with thicker ones.
    let all = [
        (true, true, true),
        (false, true, true),
        (false, true, false),
        (false, false, false),
    ];
    assert!(all.iter().all(|sort| seen.contains(sort)), "{seen:?}");
}

/// A wide beam on one line alone: "every" strip is looked at, that of the last record too.
#[test]
fn one_line_is_enough() {
    for line in 0..8 {
        let mut floor = short(150, 150);
        assert_eq!(listed(&floor).len(), 144);
        let lines = floor.x_lines.iter_mut().chain(&mut floor.y_lines);
        lines.skip(line).take(1).for_each(|beam| beam.0 = 700);
        let bytes = floor.bytes();
        assert_eq!(judge(&bytes), (0, 0), "{line}");
        for (place, entry) in each(&bytes).into_iter().enumerate() {
            let lacks = place / 18 == line && place % 2 == 0;
            assert_eq!(entry.err(), lacks.then_some(Lack::Width), "{line} {place}");
        }
        assert_eq!(entries(&bytes), None);
        assert_refused(&bytes, ALWAYS_SUFFICE, 17);
    }
}

/// "15, schedule buffer too short": 24 records of the table are 24·6·32 bytes. "A refused schedule writes nothing."
#[test]
fn a_buffer_too_short() {
    let floor = Floor::clear(3, 3).bytes();
    for length in [0, 1, 31, 32, 144, 4_576, 4_607] {
        assert_refused(&floor, length, 15);
    }
    let largest = Floor::clear(12, 12).bytes();
    assert_refused(&largest, ALWAYS_SUFFICE - 1, 15);
}

/// "Numbers past the table stay, and so does what lies past any other output in its lent buffer." (01)
#[test]
fn as_many_bytes_as_needed_and_more() {
    let floor = Floor::clear(3, 3).bytes();
    let mut right = vec![HELD; 4_608];
    assert_eq!(schedule(&floor, &mut right), (0, 144));
    for tail in [0, 1, 31, 32, 60_000] {
        let mut lent = vec![HELD; 4_608 + tail];
        assert_eq!(schedule(&floor, &mut lent), (0, 144));
        assert_eq!(lent, [&right[..], &vec![HELD; tail]].concat());
    }
}

/// "Order: 1 to 7, 16, 15, 17."
#[test]
fn order_of_refusals() {
    for (number, floor) in refused() {
        for length in [0, 4_607, ALWAYS_SUFFICE] {
            assert_refused(&floor, length, number);
        }
    }
    assert_refused(&[], ALWAYS_SUFFICE, 1);
    // No strip is left on the first line, and twice 1,000 is less than 2,001.
    let mut floor = short(700, 150);
    assert_refused(&floor.bytes(), 4_608, 17);
    assert_refused(&floor.bytes(), 4_607, 15);
    assert_refused(&floor.bytes(), 0, 15);
    floor.live = 2_001;
    assert_eq!(judge(&floor.bytes()), (0, 16));
    for length in [0, 4_607, 4_608, ALWAYS_SUFFICE] {
        assert_refused(&floor.bytes(), length, 16);
    }
    // A column too wide as well: 2·520 is more than 1,000.
    floor.cx = 520;
    assert_refused(&floor.bytes(), 0, 6);
}

/// "16, verdict not 0": for each limit alone.
#[test]
fn each_limit_alone() {
    for (limit, at, alter) in crate::clear::edges() {
        assert_refused(&at.bytes(), 0, 15);
        let mut past = at;
        alter(&mut past);
        assert_eq!(judge(&past.bytes()), (0, limit));
        assert_refused(&past.bytes(), ALWAYS_SUFFICE, 16);
    }
    assert_refused(&Floor::clear(2, 3).bytes(), ALWAYS_SUFFICE, 16);
}
