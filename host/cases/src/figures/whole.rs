//! The whole floors. docs/FIGURES.md says what of each was changed to bring it into the ranges of 01.

use super::asked::Place::{Between, High, Low};
use super::asked::Share::{Beam, Column, Middle, Total};
use super::asked::{moment, question, section, Along, Asked, What};
use crate::floors::small::one_bay;
use floor::{Floor, NO_BEAM};

pub fn floors() -> Vec<Asked> {
    let mut floors = figures_of_01();
    floors.extend([
        unlike_neighbours(),
        with_beams(),
        edge_beams(),
        wide_column(),
        no_beams(),
        general_example(),
    ]);
    floors
}

fn judged(number: u32, verdict: u32, floor: Floor) -> Asked {
    Asked {
        floor,
        questions: vec![question(number, What::Verdict, verdict)],
    }
}

/// Three bays along x, the middle one another.
fn middle_bay(span: u32) -> Floor {
    Floor {
        x_spans: vec![6_000, span, 6_000],
        ..Floor::clear(3, 3)
    }
}

/// A column inside moved along x.
fn moved_column(offset: u32) -> Floor {
    let mut floor = Floor::clear(3, 3);
    floor.offsets[5] = (offset, 0);
    floor
}

/// "Neighbours 6,000 and 4,000 pass, 3,980 breaks. Offset 600 on 6,000 passes, 601 breaks. L = 2D
/// passes." And what "prints only `0 1`".
fn figures_of_01() -> Vec<Asked> {
    let twice = Floor {
        dead: 5_000,
        live: 10_000,
        ..Floor::clear(3, 3)
    };
    let printed = Asked {
        floor: one_bay(),
        questions: vec![question(7, What::Refusal, 0), question(8, What::Verdict, 1)],
    };
    vec![
        judged(2, 0, middle_bay(4_000)),
        judged(3, 4, middle_bay(3_980)),
        judged(4, 0, moved_column(600)),
        judged(5, 8, moved_column(601)),
        judged(6, 0, twice),
        printed,
    ]
}

/// Document 000: "6 − 3.5 = 2.5 > 6/3 = 2 Invalid"
fn unlike_neighbours() -> Asked {
    judged(101, 4, middle_bay(3_500))
}

fn floor_with_beams() -> Floor {
    Floor {
        t: 165,
        fc: 21,
        fy: 280,
        dead: 3_960,
        live: 5_750,
        cx: 370,
        cy: 370,
        x_spans: vec![7_600; 3],
        y_spans: vec![6_000; 3],
        x_lines: vec![(350, 700); 4],
        y_lines: vec![(300, 600); 4],
        ..Floor::clear(3, 3)
    }
}

/// Document 000: Example (6) of the limits, Examples (1) and (2). The frame is x line 1.
fn with_beams() -> Asked {
    let end = Along::X { line: 1, span: 0 };
    let inner = Along::X { line: 1, span: 1 };
    let questions = [
        vec![
            question(103, What::Verdict, 0),
            question(113, What::StaticMoment(end), 547_000),
        ],
        section(114, end, Low, [87_520, 81_428, 69_210, 12_214, 6_092]),
        section(
            119,
            end,
            Between,
            [311_790, 253_480, 215_450, 38_020, 58_310],
        ),
        section(124, end, High, [382_900, 311_297, 264_600, 46_690, 71_603]),
        section(129, inner, Low, [355_550, 289_060, 245_700, 43_360, 66_140]),
        section(
            134,
            inner,
            Between,
            [191_450, 155_648, 132_300, 23_347, 35_802],
        ),
    ];
    Asked {
        floor: floor_with_beams(),
        questions: questions.concat(),
    }
}

/// Document 000: Example (4). A wall to the south; the frames are y line 0 and x line 1.
fn edge_beams() -> Asked {
    let along_y = Along::Y { line: 0, span: 0 };
    let along_x = Along::X { line: 1, span: 0 };
    let edges = vec![(300, 600), NO_BEAM, NO_BEAM, (300, 600)];
    Asked {
        floor: Floor {
            dead: 7_000,
            live: 2_500,
            cx: 600,
            cy: 300,
            sides: 16 * 2,
            x_spans: vec![7_000; 3],
            y_spans: vec![5_000; 3],
            x_lines: edges.clone(),
            y_lines: edges,
            ..Floor::clear(3, 3)
        },
        questions: vec![
            question(151, What::StaticMoment(along_y), 130_110),
            moment(152, along_y, Low, Total, 84_570),
            moment(154, along_y, Low, Column, 34_500),
            moment(156, along_y, Low, Beam, 29_330),
            question(158, What::StaticMoment(along_x), 317_440),
            moment(159, along_x, Between, Total, 158_730),
            moment(160, along_x, Between, Column, 95_230),
            moment(161, along_x, Between, Middle, 63_500),
        ],
    }
}

/// Document 000: Example (5), on x line 1. Its columns are 450 along the frame.
fn wide_column() -> Asked {
    let end = Along::X { line: 1, span: 0 };
    Asked {
        floor: Floor {
            t: 175,
            fc: 25,
            dead: 6_000,
            live: 4_000,
            cx: 450,
            cy: 450,
            x_spans: vec![4_500; 3],
            y_spans: vec![3_000; 3],
            ..Floor::clear(3, 3)
        },
        questions: vec![
            question(166, What::StaticMoment(end), 83_650),
            moment(167, end, High, Total, 58_550),
        ],
    }
}

/// Document 000: Example (6) of the flat plates, on x line 1.
fn no_beams() -> Asked {
    let end = Along::X { line: 1, span: 0 };
    Asked {
        floor: Floor {
            fc: 25,
            dead: 4_800,
            live: 4_000,
            cx: 300,
            cy: 300,
            x_spans: vec![6_000; 3],
            y_spans: vec![5_500; 3],
            ..Floor::clear(3, 3)
        },
        questions: vec![
            question(170, What::StaticMoment(end), 271_600),
            moment(171, end, Low, Total, 70_620),
            moment(173, end, Low, Column, 70_620),
        ],
    }
}

/// Document 004: General Example 1, on x line 0.
fn general_example() -> Asked {
    let end = Along::X { line: 0, span: 0 };
    let inner = Along::X { line: 0, span: 1 };
    let questions = [
        vec![
            question(407, What::Verdict, 0),
            question(420, What::StaticMoment(end), 249_210),
        ],
        section(425, end, Low, [39_870, 36_020, 30_620, 5_400, 3_850]),
        section(430, end, Between, [142_050, 92_330, 78_480, 13_850, 49_720]),
        section(435, end, High, [174_450, 113_390, 96_380, 17_010, 61_060]),
        section(440, inner, Low, [161_990, 105_290, 89_500, 15_790, 56_700]),
        section(445, inner, Between, [87_220, 56_690, 48_190, 8_500, 30_530]),
    ];
    let floor = Floor {
        t: 180,
        dead: 7_580,
        live: 4_250,
        cx: 600,
        cy: 600,
        x_spans: vec![6_000; 3],
        y_spans: vec![8_000; 3],
        x_lines: vec![(300, 600); 4],
        y_lines: vec![(300, 700), (300, 600), (300, 600), (300, 700)],
        ..Floor::clear(3, 3)
    };
    Asked {
        floor,
        questions: questions.concat(),
    }
}
