//! Floors to schedule the bars of (02, Five and Six), all of them clear: with each of the bars, at the edges of width
//! and spacing, refused 17 for each of its reasons by one record alone, and with other bars along y than along x. Their
//! loads and beams were found by trying.

use super::Described;
use floor::{Floor, NO_BEAM};

/// Along x and across.
pub fn floors() -> Vec<Described> {
    let mut floors = Vec::new();
    let groups = [
        bars(),
        equal(),
        spacings(),
        widths(),
        lacking(),
        last_strip(),
        lacking_on_y_frames(),
        other_bars_on_y_frames(),
        large(),
    ];
    for Worded {
        words,
        along,
        across,
    } in groups.into_iter().flatten()
    {
        let words = format!("schedule, {words}");
        floors.push(Described::floor(&words, &along));
        if across != along {
            floors.push(Described::floor(format!("{words}, across"), &across));
        }
    }
    floors
}

struct Worded {
    words: String,
    along: Floor,
    /// With x and y changed round. Where the depth tells, the loads are others too: "In the schedule these are the x
    /// frames", at t − 26, and "y frames keep 0", now t − 38 (02, Six).
    across: Floor,
}

/// One floor both ways round.
fn both_ways(words: impl Into<String>, floor: Floor) -> Worded {
    Worded {
        words: words.into(),
        across: floor.transposed(),
        along: floor,
    }
}

/// 3 by 4 bays without beams and with loads so light that each strip takes its least area.
fn light(span: u32, t: u32) -> Floor {
    Floor {
        t,
        dead: 1_000,
        live: 0,
        cx: 200,
        cy: 200,
        x_spans: vec![span; 3],
        y_spans: vec![span; 4],
        ..Floor::clear(3, 4)
    }
}

fn with_beams(mut floor: Floor, beam: (u32, u32)) -> Floor {
    floor.x_lines.fill(beam);
    floor.y_lines.fill(beam);
    floor
}

/// At fy 280 the least area is 2·t·b/1000: 80 times that is 78.9·b at t 493 and 79.04·b at 494.
fn bars() -> Vec<Worded> {
    let loaded = |dead, live| Floor {
        dead,
        live,
        ..Floor::clear(3, 4)
    };
    let thick = |t, dead, live| Floor {
        t,
        fy: 280,
        ..loaded(dead, live)
    };
    let mut edge_beams = loaded(12_000, 5_000);
    edge_beams.x_lines = vec![(301, 600), NO_BEAM, NO_BEAM, NO_BEAM, (300, 600)];
    edge_beams.y_lines = vec![(403, 600), NO_BEAM, NO_BEAM, (402, 600)];
    [
        ("10 mm alone", loaded(5_000, 2_000)),
        ("10 mm at 80 alone, t 493", thick(493, 1_000, 0)),
        ("12 mm alone, t 494", thick(494, 1_000, 0)),
        ("10 and 12 mm", loaded(8_000, 5_000)),
        ("10, 12 and 16 mm", loaded(12_000, 5_000)),
        ("10, 12 and 16 mm, beams on the outer lines", edge_beams),
        ("12 and 16 mm, t 500", thick(500, 20_000, 20_000)),
    ]
    .map(|(words, floor)| both_ways(words, floor))
    .into()
}

/// Slab, diameter, spacing and dead load, then the greatest live load at which bar area times width is area times
/// spacing: on x frames and on y frames. With the next it takes a mm² more.
const EQUAL: [(u32, u32, u32, u32, [u32; 2]); 9] = [
    (90, 10, 100, 30_000, [36_899, 24_501]),
    (240, 10, 80, 4_000, [6_046, 5_519]),
    (240, 10, 100, 4_000, [4_294, 3_872]),
    (240, 12, 80, 6_000, [8_220, 7_466]),
    (240, 12, 100, 5_000, [6_543, 5_939]),
    (240, 16, 80, 10_000, [14_113, 12_771]),
    (240, 16, 100, 8_000, [11_661, 10_587]),
    (500, 12, 80, 15_000, [17_813, 17_059]),
    (500, 16, 80, 20_000, [35_683, 34_342]),
];

/// So much longer along x that the x frames have most. Inside, their column strips are 3,200 mm wide, or 400 beside the
/// beams at t 90.
fn longer_along_x(t: u32) -> Floor {
    if t == 90 {
        return Floor {
            x_spans: vec![2_400; 3],
            ..with_beams(light(1_400, t), (300, 400))
        };
    }
    Floor {
        t,
        sides: 170,
        x_spans: vec![7_000; 3],
        y_spans: vec![6_400; 4],
        ..Floor::clear(3, 4)
    }
}

/// In the column strips inside, at both ends of the inner spans.
fn equal() -> Vec<Worded> {
    let mut floors = Vec::new();
    for (t, diameter, spacing, dead, lives) in EQUAL {
        for (more, words) in [(0, "just"), (1, "just not")] {
            let [on_x, on_y] = lives.map(|live| Floor {
                dead,
                live: live + more,
                ..longer_along_x(t)
            });
            floors.push(Worded {
                words: format!("{words} {diameter} mm at {spacing}, t {t}"),
                along: on_x,
                across: on_y.transposed(),
            });
        }
    }
    floors
}

/// "at most 2t", also where that is no multiple of 10.
fn spacings() -> Vec<Worded> {
    let mut floors = Vec::new();
    for t in [125, 127, 144, 145] {
        floors.push(both_ways(format!("spacing at 2t, t {t}"), light(3_000, t)));
    }
    for t in [90, 91, 95] {
        let floor = with_beams(light(2_000, t), (300, 400));
        floors.push(both_ways(format!("spacing at 2t, t {t}"), floor));
    }
    floors
}

/// A record of 3 by 4 bays.
#[derive(Clone, Copy)]
enum Place {
    /// x line 0, span 0: record 0.
    First,
    /// x line 2, span 1: record 7.
    Middle,
    /// y line 3, span 3: record 30.
    Last,
}

const PLACES: [(Place, &str); 3] = [
    (Place::First, "the first record"),
    (Place::Middle, "a middle record"),
    (Place::Last, "the last record"),
];

/// Bays of 1,500 but for the one along the record, of 1,000: on its line wc is 350 there and 475 elsewhere, or 500 and
/// 750 inside. The line has a beam of this width, the others one of 150.
fn narrow(place: Place, width: u32, t: u32) -> Floor {
    let mut floor = with_beams(light(1_500, t), (150, t + 175));
    let (span, line) = match place {
        Place::First => (&mut floor.x_spans[0], &mut floor.x_lines[0]),
        Place::Middle => (&mut floor.x_spans[1], &mut floor.x_lines[2]),
        Place::Last => (&mut floor.y_spans[3], &mut floor.y_lines[3]),
    };
    *span = 1_000;
    line.0 = width;
    floor
}

/// "less the beam's width on an inside line, less half of it, rounded up, on an outer line": a strip of 1 mm, of 0 and
/// of less.
fn widths() -> Vec<Worded> {
    let mut floors = Vec::new();
    for (place, words) in PLACES {
        let beams: &[(u32, &str)] = match place {
            Place::Middle => &[(499, "1"), (500, "0"), (520, "-20")],
            _ => &[(697, "1"), (698, "1"), (699, "0"), (700, "0"), (740, "-20")],
        };
        for &(beam, left) in beams {
            let words = format!("strip of {left} mm in {words}, beam {beam}");
            floors.push(both_ways(words, narrow(place, beam, 125)));
        }
    }
    floors
}

/// Beside the beam the strip is so narrow that its moment asks for more than the strain allows or, in a thicker slab,
/// than any bar makes up. Beam, slab and dead load are followed by the greatest live loads at which it does not yet: on
/// an x frame and on a y frame.
fn lacking() -> Vec<Worded> {
    let mut floors = Vec::new();
    for (place, words) in PLACES {
        let (for_area, for_bar) = match place {
            Place::Middle => (
                (496, 125, 10_000, [12_421, 7_567]),
                (498, 300, 30_000, [20_140, 18_119]),
            ),
            _ => (
                (694, 125, 10_000, [16_011, 9_264]),
                (696, 300, 30_000, [47_371, 44_062]),
            ),
        };
        for (edge, (beam, t, dead, [on_x, on_y])) in [
            (["just an area", "no area"], for_area),
            (["just a bar", "no bar"], for_bar),
        ] {
            // The last record is one of a y frame.
            let (along, across) = match place {
                Place::Last => (on_y, on_x),
                _ => (on_x, on_y),
            };
            for (more, having) in (0..).zip(edge) {
                let loaded = |live: u32| Floor {
                    dead,
                    live: live + more,
                    ..narrow(place, beam, t)
                };
                floors.push(Worded {
                    words: format!("{having} in {words}"),
                    along: loaded(along),
                    across: loaded(across).transposed(),
                });
            }
        }
    }
    floors
}

/// Fully restrained in the north, where the middle strips have most. Of all last spans only that of the last line is
/// past its limit, by what is rounded, and of the whole schedule only the last strip: that of a y frame, and across that
/// of an x frame.
fn last_strip() -> Vec<Worded> {
    let restrained = |t: u32, [x_span, y_span, live]: [u32; 3]| {
        let mut floor = Floor {
            sides: 2 * 64,
            dead: 20_000,
            live,
            ..with_beams(light(4_000, t), (400, 600))
        };
        floor.x_spans[2] = x_span;
        floor.y_spans[3] = y_span;
        floor
    };
    let mut floors = Vec::new();
    for (words, t, on_y, on_x) in [
        (
            "last strip with an area",
            125,
            [4_400, 4_400, 5_011],
            [4_200, 4_400, 10_913],
        ),
        (
            "no area in the last strip",
            125,
            [4_400, 4_400, 5_012],
            [4_200, 4_400, 10_914],
        ),
        (
            "last strip with a bar",
            200,
            [3_800, 5_000, 29_792],
            [3_800, 5_000, 33_596],
        ),
        (
            "no bar in the last strip",
            200,
            [3_800, 5_000, 29_793],
            [3_800, 5_000, 33_597],
        ),
    ] {
        floors.push(Worded {
            words: words.to_string(),
            along: restrained(t, on_y),
            across: restrained(t, on_x).transposed(),
        });
    }
    floors
}

/// 3 by 3 bays that are the same with x and y changed round, every side fully restrained.
fn same_both_ways(t: u32, dead: u32, live: u32) -> Floor {
    let (span, column, beam) = match t {
        90 => (3_000, 200, (300, 400)),
        150 => (4_800, 400, NO_BEAM),
        _ => (6_400, 400, NO_BEAM),
    };
    let floor = Floor {
        t,
        dead,
        live,
        sides: 170,
        cx: column,
        cy: column,
        x_spans: vec![span; 3],
        y_spans: vec![span; 3],
        ..Floor::clear(3, 3)
    };
    with_beams(floor, beam)
}

/// Slab, what comes to be lacking and dead load, then the greatest live loads at which it is not yet: on the y frames
/// and on the x frames. "The y bars lie on the x bars" (02, Six), so the y frames lack it first.
const LACKING_ON_Y_FRAMES: [(u32, &str, u32, [u32; 2]); 4] = [
    (90, "area", 20_000, [1_090, 9_368]),
    (150, "area", 15_000, [8_901, 13_451]),
    (240, "bar", 10_000, [17_028, 18_652]),
    (500, "bar", 30_000, [37_203, 38_827]),
];

fn lacking_on_y_frames() -> Vec<Worded> {
    let mut floors = Vec::new();
    for (t, what, dead, [on_y, on_x]) in LACKING_ON_Y_FRAMES {
        for (live, words) in [
            (on_y, "lacking nowhere"),
            (on_y + 1, "just lacking on y frames"),
            (on_x, "just not lacking on x frames"),
            (on_x + 1, "lacking on x frames too"),
        ] {
            let words = format!("{what} {words}, t {t}");
            floors.push(both_ways(words, same_both_ways(t, dead, live)));
        }
    }
    floors
}

/// The same moments on both, at depths that differ by 12 mm.
fn other_bars_on_y_frames() -> Vec<Worded> {
    [
        ("closer on y frames", Floor::clear(3, 3)),
        (
            "12 mm on y frames for 10",
            same_both_ways(240, 4_000, 7_944),
        ),
        (
            "16 mm on y frames for 12",
            same_both_ways(240, 6_000, 10_890),
        ),
        ("the same on y frames", same_both_ways(240, 1_000, 0)),
    ]
    .map(|(words, floor)| both_ways(words, floor))
    .into()
}

/// So many bays each way, of which the last record alone has a strip of no width: its beam of 700 takes the 350 mm.
pub fn refused_by_the_last(bays: usize) -> Floor {
    let mut floor = Floor {
        x_spans: vec![1_500; bays],
        y_spans: vec![1_500; bays],
        x_lines: vec![(150, 300); bays + 1],
        y_lines: vec![(150, 300); bays + 1],
        offsets: vec![(0, 0); (bays + 1) * (bays + 1)],
        ..light(1_500, 125)
    };
    floor.y_spans[bays - 1] = 1_000;
    floor.y_lines[bays].0 = 700;
    floor
}

fn large() -> Vec<Worded> {
    vec![
        both_ways("12x12, 10 mm alone", Floor::clear(12, 12)),
        both_ways(
            "12x12, strip of 0 mm in the last record",
            refused_by_the_last(12),
        ),
    ]
}
