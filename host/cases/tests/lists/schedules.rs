//! The floors to schedule bars of: that each is what its words say (02, Five and Six).

use crate::floors::all_floors;
use cases::floors::{schedules, Described};
use floor::Floor;
use reference::schedule::{each, entries, schedule, Entry, Lack, ALWAYS_SUFFICE};
use reference::steel::steel;
use reference::table::{numbers, place};
use reference::verdict::judge;
use std::collections::BTreeMap;

fn floor(words: &str) -> &'static Described {
    let words = format!("schedule, {words}");
    let mut all = all_floors().iter();
    let floor = all.find(|floor| floor.description == words);
    floor.unwrap_or_else(|| panic!("no floor is described as {words:?}"))
}

fn scheduled(words: &str) -> Vec<Entry> {
    entries(&floor(words).bytes).unwrap_or_else(|| panic!("{words} is refused"))
}

/// Those strips that lack something, by their place in the schedule.
fn lacks(words: &str) -> Vec<(usize, Lack)> {
    let strips = each(&floor(words).bytes).into_iter().enumerate();
    strips
        .filter_map(|(place, strip)| Some((place, strip.err()?)))
        .collect()
}

#[test]
fn all_are_clear_and_some_refused() {
    let floors = schedules::floors();
    assert!(floors.len() >= 60, "{}", floors.len());
    let mut answers = BTreeMap::new();
    for Described { description, bytes } in floors {
        assert_eq!(judge(&bytes), (0, 0), "{description}");
        let (refused, _) = schedule(&bytes, &mut [0; ALWAYS_SUFFICE]);
        *answers.entry(refused).or_insert(0) += 1;
    }
    assert!(answers.keys().eq(&[0, 17]), "{answers:?}");
    assert!(answers.values().all(|&floors| floors >= 25), "{answers:?}");
}

/// Each diameter with its least and its largest spacing.
fn bars(words: &str) -> Vec<(u128, u128, u128)> {
    let mut by_diameter = BTreeMap::new();
    for Entry {
        diameter, spacing, ..
    } in scheduled(words)
    {
        let (least, most) = by_diameter.entry(diameter).or_insert((spacing, spacing));
        (*least, *most) = (spacing.min(*least), spacing.max(*most));
    }
    let bars = by_diameter.into_iter();
    bars.map(|(diameter, (least, most))| (diameter, least, most))
        .collect()
}

/// Each floor that is not the same both ways is there along x and across.
const BOTH_WAYS: [&str; 2] = ["", ", across"];

/// 78.9 of 79 at 80; 113/0.988 is 114.4; 79·1000/(1.8·t) is 351 at t 125 and above 2t up to 148.
#[test]
fn one_bar_at_one_spacing() {
    for (words, expected) in [
        ("10 mm at 80 alone, t 493", (10, 80)),
        ("12 mm alone, t 494", (12, 110)),
        ("spacing at 2t, t 125", (10, 250)),
        ("spacing at 2t, t 127", (10, 250)),
        ("spacing at 2t, t 144", (10, 280)),
        ("spacing at 2t, t 145", (10, 290)),
        ("spacing at 2t, t 90", (10, 180)),
        ("spacing at 2t, t 91", (10, 180)),
        ("spacing at 2t, t 95", (10, 190)),
    ] {
        let (diameter, spacing) = expected;
        for across in BOTH_WAYS {
            let words = format!("{words}{across}");
            assert_eq!(bars(&words), [(diameter, spacing, spacing)], "{words}");
        }
    }
}

fn diameters(words: &str) -> Vec<u128> {
    let bars = bars(words).into_iter();
    bars.map(|(diameter, ..)| diameter).collect()
}

#[test]
fn bars_as_said() {
    for (words, expected) in [
        ("10 mm alone", &[10][..]),
        ("10 and 12 mm", &[10, 12]),
        ("10, 12 and 16 mm", &[10, 12, 16]),
        ("10, 12 and 16 mm, beams on the outer lines", &[10, 12, 16]),
        ("12 and 16 mm, t 500", &[12, 16]),
    ] {
        for across in BOTH_WAYS {
            assert_eq!(diameters(&format!("{words}{across}")), expected, "{words}");
        }
    }
    assert_eq!(diameters("12x12, 10 mm alone"), [10]);
}

/// "for which bar area times width is at least area times spacing": 79, 113 and 201 over 3,200 mm make so much at 80 and
/// at 100, and 79 over 400 mm 316 at 100. A mm² more takes the next spacing or bar, 113·3200/3161 being 114.4 and
/// 201·3200/4521 142.3; no bar is left for 8,041.
///
/// It is asked for on x frames at t − 26 and on y frames at t − 38.
#[test]
fn equality_and_one_past_it() {
    for (t, width, diameter, spacing, area, next) in [
        (90, 400, 10, 100, 316, Some((10, 90))),
        (240, 3_200, 10, 80, 3_160, Some((12, 110))),
        (240, 3_200, 10, 100, 2_528, Some((10, 90))),
        (240, 3_200, 12, 80, 4_520, Some((16, 140))),
        (240, 3_200, 12, 100, 3_616, Some((12, 90))),
        (240, 3_200, 16, 80, 8_040, None),
        (240, 3_200, 16, 100, 6_432, Some((16, 90))),
        (500, 3_200, 12, 80, 4_520, Some((16, 140))),
        (500, 3_200, 16, 80, 8_040, None),
    ] {
        for (across, record, d) in [("", 4, t - 26), (", across", 20, t - 38)] {
            let words = format!("{diameter} mm at {spacing}, t {t}{across}");
            let at = scheduled(&format!("just {words}"))[6 * record];
            assert_eq!((at.width, at.area), (width, area), "{words}");
            assert_eq!((at.diameter, at.spacing), (diameter, spacing), "{words}");
            let words = format!("just not {words}");
            let past = each(&floor(&words).bytes)[6 * record];
            let past = past.map(|past| (past.diameter, past.spacing));
            assert_eq!(past, next.ok_or(Lack::Bar), "{words}");
            let needed = steel(low_slab_moment(&words, record), width, t, d, 30, 420);
            assert_eq!(needed, (0, area + 1), "{words}");
        }
    }
}

/// At the low end of a record, as the table has it: total, column, middle, beam and slab after Mo. Record 4 is that of
/// the second span on x line 1 and, of 4 by 3 bays, record 20 that of the second span on y line 1.
fn low_slab_moment(words: &str, record: usize) -> u128 {
    numbers(&floor(words).bytes)[place(record as u128)][5].into()
}

/// The records of `Place` in `schedules`, and with x and y changed round: of 3 by 4 bays 15 records are of x frames
/// and 16 of y frames.
const PLACES: [(&str, usize, usize); 3] = [
    ("the first record", 0, 16),
    ("a middle record", 7, 23),
    ("the last record", 30, 15),
];

/// Of all strips only the column strips of that record.
#[test]
fn strips_of_1_mm() {
    for (place, along, across) in PLACES {
        let beams: &[u32] = match along {
            7 => &[499],
            _ => &[697, 698],
        };
        for (words, record) in [("", along), (", across", across)] {
            for beam in beams {
                let words = format!("strip of 1 mm in {place}, beam {beam}{words}");
                for entry in scheduled(&words) {
                    let narrow = entry.record == record as u128 && entry.strip == 0;
                    assert_eq!(entry.width == 1, narrow, "{words} {entry:?}");
                }
            }
        }
    }
}

/// Width and what it lacks, of the low end, between and of the high end of that record's column strip.
#[test]
fn strips_of_no_width() {
    for (place, along, across) in PLACES {
        let beams: &[(i32, u32)] = match along {
            7 => &[(0, 500), (-20, 520)],
            _ => &[(0, 699), (0, 700), (-20, 740)],
        };
        for (words, record) in [("", along), (", across", across)] {
            let expected = [0, 2, 4].map(|strip| (6 * record + strip, Lack::Width));
            for (left, beam) in beams {
                let words = format!("strip of {left} mm in {place}, beam {beam}{words}");
                assert_eq!(lacks(&words), expected, "{words}");
            }
        }
    }
}

/// An end span has most at its inner end, the high one of the first span and the low one of the last; an inner span at
/// both.
#[test]
fn no_area_and_no_bar_in_one_record() {
    for (place, along, across) in PLACES {
        let strips: &[usize] = match along {
            0 => &[4],
            7 => &[0, 4],
            _ => &[0],
        };
        for (words, record) in [("", along), (", across", across)] {
            for (lack, what) in [(Lack::Area, "area"), (Lack::Bar, "bar")] {
                let expected = strips.iter().map(|strip| (6 * record + strip, lack));
                let lacking = format!("no {what} in {place}{words}");
                assert_eq!(lacks(&lacking), expected.collect::<Vec<_>>(), "{lacking}");
                let article = if lack == Lack::Area { "an" } else { "a" };
                scheduled(&format!("just {article} {what} in {place}{words}"));
            }
        }
    }
}

/// 186 strips, of which the last is refused; with x and y changed round the last of the x frames, of 96.
#[test]
fn the_last_strip_alone() {
    for (lack, what) in [(Lack::Area, "an area"), (Lack::Bar, "a bar")] {
        let lacking = what.replace("an ", "").replace("a ", "");
        for (words, last) in [("", 185), (", across", 95)] {
            scheduled(&format!("last strip with {what}{words}"));
            let found = lacks(&format!("no {lacking} in the last strip{words}"));
            assert_eq!(found, [(last, lack)]);
        }
    }
}

/// 3 by 3 bays that are the same both ways: the x frames have the first 72 strips, the y frames the same once more.
fn assert_same_both_ways(words: &str) {
    let floor = Floor::of(&floor(words).bytes).expect("a floor");
    assert_eq!(floor, floor.transposed(), "{words}");
    assert_eq!((floor.x_spans.len(), floor.y_spans.len()), (3, 3));
}

/// How many strips of x frames and of y frames lack this, where none lacks anything else.
fn lacks_by_frames(words: &str, expected: Lack) -> [usize; 2] {
    assert_same_both_ways(words);
    let lacks = lacks(words).into_iter();
    let places = lacks.map(|(place, lack)| {
        assert_eq!(lack, expected, "{words}");
        place
    });
    let (x, y): (Vec<usize>, Vec<usize>) = places.partition(|&place| place < 72);
    [x.len(), y.len()]
}

/// "The y bars lie on the x bars, so steel worked out for them at d = 0 is short" (02, Six): what Five could still bar
/// is refused 17 by y frames alone.
#[test]
fn y_frames_lack_first() {
    for (t, what, lack) in [
        (90, "area", Lack::Area),
        (150, "area", Lack::Area),
        (240, "bar", Lack::Bar),
        (500, "bar", Lack::Bar),
    ] {
        let lacks = |words: &str| lacks_by_frames(&format!("{what} {words}, t {t}"), lack);
        assert_eq!(lacks("lacking nowhere"), [0, 0], "{t}");
        for words in ["just lacking on y frames", "just not lacking on x frames"] {
            let [x, y] = lacks(words);
            assert!(x == 0 && y > 0, "{words}, t {t}");
        }
        let [x, y] = lacks("lacking on x frames too");
        assert!(x > 0 && y > 0, "{t}");
    }
}

/// Area, diameter and spacing of a strip on an x frame and of the same strip on the y frame.
fn by_frames(words: &str, place: usize) -> [[u128; 3]; 2] {
    assert_same_both_ways(words);
    let entries = scheduled(words);
    let [on_x, on_y] = [entries[place], entries[72 + place]];
    assert_eq!((on_x.width, on_x.moment), (on_y.width, on_y.moment));
    [on_x, on_y].map(|entry| [entry.area, entry.diameter, entry.spacing])
}

/// In the reference's tests 947 and 1,021 are worked by hand for the inner end of record 0, 1,700 mm wide.
///
/// For the other floors, of t 240, at the low end of record 4, 3,200 mm wide, M is three quarters of 65·Mo: Mo is
/// 175104·6400·6000²/80000000000 = 504299.5 or 246240·6400·6000²/80000000000 = 709171.2, M 24,584,625 or 34,572,135.
/// - On x frames, at 214, 3,160 carry 11944800·335976000/163200000 = 24,590,478 and 3,159 11941020·335980200/163200000 =
///   24,583,004; 4,520 carry 17085600·330264000/163200000 = 34,575,726 and 4,519 17081820·330268200/163200000 =
///   34,568,516.
/// - On y frames, at 202, 3,364 carry 12715920·315535200/163200000 = 24,585,296 and 3,363 12712140·315539400/163200000 =
///   24,578,315; 4,825 carry 18238500·309399000/163200000 = 34,577,044 and 4,824 18234720·309403200/163200000 =
///   34,570,347.
///
/// 79·3200/3160 and 113·3200/4520 are 80; 113·3200/3364 is 107.5 and 201·3200/4825 133.3. At D 1,000 the minimum of
/// 756·3200·240/420000 = 1382.4 governs, and 79·3200/1383 is 182.8.
#[test]
fn other_bars_on_y_frames() {
    for (words, place, on_x, on_y) in [
        ("closer on y frames", 4, [947, 10, 140], [1_021, 10, 130]),
        (
            "12 mm on y frames for 10",
            24,
            [3_160, 10, 80],
            [3_364, 12, 100],
        ),
        (
            "16 mm on y frames for 12",
            24,
            [4_520, 12, 80],
            [4_825, 16, 130],
        ),
        (
            "the same on y frames",
            24,
            [1_383, 10, 180],
            [1_383, 10, 180],
        ),
    ] {
        assert_eq!(by_frames(words, place), [on_x, on_y], "{words}");
    }
    for place in 0..72 {
        let [on_x, on_y] = by_frames("the same on y frames", place);
        assert_eq!(on_x, on_y, "{place}");
    }
}

/// 312 records, 1,872 strips.
#[test]
fn the_largest() {
    assert_eq!(scheduled("12x12, 10 mm alone").len(), 1_872);
    for (words, record) in [("", 311), (", across", 155)] {
        let words = format!("12x12, strip of 0 mm in the last record{words}");
        let expected = [0, 2, 4].map(|strip| (6 * record + strip, Lack::Width));
        assert_eq!(lacks(&words), expected);
    }
}
