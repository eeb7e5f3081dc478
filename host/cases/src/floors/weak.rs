//! Floors with a weak outer line and with one just strong enough (02, Three). Their beams were found by trying,
//! with the inertia of document 001.

use super::beams::{Beam, Edge};
use floor::{Floor, NO_BEAM};

/// Three bays each way between columns that are square, alike but for the first one along x in some.
#[derive(Clone, Copy)]
struct Edged {
    t: u32,
    fy: u32,
    x_span: u32,
    /// Of the second and the third bay, where another one.
    next_x_spans: Option<u32>,
    y_span: u32,
    column: u32,
    /// On x line 0, the one that is weak or just strong enough.
    south: Beam,
    /// On x line 1.
    next: Beam,
    inner: Beam,
    outer: Beam,
}

impl Edged {
    fn floor(self) -> Floor {
        let Edged { inner, outer, .. } = self;
        let next = self.next_x_spans.unwrap_or(self.x_span);
        Floor {
            t: self.t,
            fy: self.fy,
            cx: self.column,
            cy: self.column,
            x_spans: vec![self.x_span, next, next],
            y_spans: vec![self.y_span; 3],
            x_lines: vec![self.south, self.next, inner, outer],
            y_lines: vec![outer, inner, inner, outer],
            ..Floor::good(3, 3)
        }
    }
}

/// What differs within a triple.
struct Variant {
    t: u32,
    x_span: u32,
    south: Beam,
}

const fn variant(t: u32, x_span: u32, south: Beam) -> Variant {
    Variant { t, x_span, south }
}

const AMONG_STIFF: Edged = Edged {
    t: 200,
    fy: 420,
    x_span: 9_120,
    next_x_spans: None,
    y_span: 5_000,
    column: 400,
    south: (772, 277),
    next: (400, 650),
    inner: (400, 650),
    outer: (400, 650),
};

const AMONG_MIDDLING: Edged = Edged {
    next: (300, 330),
    inner: (300, 330),
    outer: (400, 400),
    ..AMONG_STIFF
};

const BETWEEN_EDGE_BEAMS: Edged = Edged {
    next: NO_BEAM,
    inner: NO_BEAM,
    ..AMONG_STIFF
};

const SMALL_STIFF: Edged = Edged {
    y_span: 3_000,
    next: (250, 300),
    inner: (250, 300),
    outer: (250, 300),
    ..AMONG_STIFF
};

const SMALL_MIDDLING: Edged = Edged {
    next: (200, 220),
    inner: (200, 220),
    outer: (300, 240),
    ..SMALL_STIFF
};

/// 11 times 181 and 182 is 10 times 199.1 and 200.2, of 90 and 125 it is 99 and 137.5; 33·160 is 5680 − 400,
/// 30·180 is 5800 − 400 and 28·190 is 5720 − 400. At last the corner alone decides.
const TRIPLES: [(&str, Edged, [Variant; 3]); 9] = [
    (
        "S above 80000",
        AMONG_STIFF,
        [
            variant(200, 9_120, (772, 277)),
            variant(200, 9_140, (772, 277)),
            variant(200, 9_140, (655, 291)),
        ],
    ),
    (
        "S above 8000",
        AMONG_MIDDLING,
        [
            variant(200, 6_560, (772, 277)),
            variant(200, 6_580, (772, 277)),
            variant(200, 6_580, (655, 291)),
        ],
    ),
    (
        "90 by its minimum",
        SMALL_STIFF,
        [
            variant(99, 3_000, (956, 111)),
            variant(98, 3_000, (980, 109)),
            variant(98, 3_000, (525, 133)),
        ],
    ),
    (
        "125 by its minimum",
        SMALL_MIDDLING,
        [
            variant(138, 3_000, (892, 158)),
            variant(137, 3_000, (926, 155)),
            variant(137, 3_000, (945, 154)),
        ],
    ),
    (
        "edge beams only, fy 280",
        Edged {
            fy: 280,
            ..BETWEEN_EDGE_BEAMS
        },
        [
            variant(160, 5_680, (913, 211)),
            variant(160, 5_700, (913, 211)),
            variant(160, 5_700, (927, 210)),
        ],
    ),
    (
        "edge beams only, fy 420",
        BETWEEN_EDGE_BEAMS,
        [
            variant(180, 5_800, (667, 261)),
            variant(180, 5_820, (667, 261)),
            variant(180, 5_820, (878, 240)),
        ],
    ),
    (
        "edge beams only, fy 520",
        Edged {
            fy: 520,
            ..BETWEEN_EDGE_BEAMS
        },
        [
            variant(190, 5_720, (747, 266)),
            variant(190, 5_740, (747, 266)),
            variant(190, 5_740, (963, 246)),
        ],
    ),
    (
        "a corner by one of its edges, S above 8000",
        Edged {
            next_x_spans: Some(6_000),
            ..AMONG_MIDDLING
        },
        [
            variant(200, 6_800, (772, 277)),
            variant(200, 6_820, (772, 277)),
            variant(200, 6_820, (655, 291)),
        ],
    ),
    (
        "a corner by one of its edges, edge beams only",
        Edged {
            next_x_spans: Some(5_000),
            ..BETWEEN_EDGE_BEAMS
        },
        [
            variant(180, 5_800, (667, 261)),
            variant(180, 5_820, (667, 261)),
            variant(180, 5_820, (878, 240)),
        ],
    ),
];

/// Each just thick enough with α 7,999 on x line 0, too thin with it, and thick enough with 8,000.
pub fn triples() -> Vec<(&'static str, [Floor; 3])> {
    let mut triples = Vec::new();
    for (words, edged, variants) in &TRIPLES {
        let floors = variants.each_ref().map(|&Variant { t, x_span, south }| {
            let varied = Edged {
                t,
                x_span,
                south,
                ..*edged
            };
            varied.floor()
        });
        triples.push((*words, floors));
    }
    triples
}

/// The middle panel of the south row has α 7,999, 24,001 and twice 24,000: it asks for 138, and for 99 with S past
/// 80000.
const AT_80000: Edged = Edged {
    t: 100,
    fy: 420,
    x_span: 3_000,
    next_x_spans: None,
    y_span: 3_000,
    column: 1_500,
    south: (953, 123),
    next: (983, 189),
    inner: (679, 210),
    outer: (300, 300),
};

/// That panel has α 2,000 four times: it asks for 4200/30 = 140, and with S past 8000 for ten percent more than 129.
const AT_8000: Edged = Edged {
    t: 140,
    x_span: 5_000,
    y_span: 5_000,
    column: 800,
    south: (567, 141),
    next: (977, 141),
    inner: (977, 141),
    outer: (300, 280),
    ..AT_80000
};

/// No panel has S above 8000: 4500/30 = 150.
const ALL_SHALLOW: Edged = Edged {
    t: 150,
    x_span: 4_900,
    y_span: 4_900,
    column: 400,
    south: (300, 170),
    next: (300, 170),
    inner: (300, 170),
    outer: (300, 170),
    ..AT_80000
};

/// On x line 0 842 by 128 has α 8,000; on x line 1 679 by 210 has 24,000, 915 by 193 has 24,002 and 955 by 142, in
/// the wider floor, 2,001.
const SUMS: [(&str, Edged); 8] = [
    ("edge 7999, S 80000", AT_80000),
    (
        "edge 7999, S 80001",
        Edged {
            next: (915, 193),
            ..AT_80000
        },
    ),
    (
        "edge 8000, S 80000",
        Edged {
            south: (842, 128),
            next: (679, 210),
            ..AT_80000
        },
    ),
    (
        "edge 8000, S 80001",
        Edged {
            south: (842, 128),
            ..AT_80000
        },
    ),
    ("edge 2000, S 8000", AT_8000),
    (
        "edge 2000, S 8001",
        Edged {
            next: (955, 142),
            ..AT_8000
        },
    ),
    ("edges and S below 8000", ALL_SHALLOW),
    (
        "edges and S below 8000, longer spans",
        Edged {
            x_span: 4_920,
            ..ALL_SHALLOW
        },
    ),
];

/// "for columns, walls and masonry edges alike": the south side has each of them in turn.
fn with_sides((number, (words, floor)): (usize, Edge)) -> Edge {
    let south = (number + number / 3) % 3;
    let sides = 16 * south as u32;
    (words, Floor { sides, ..floor })
}

pub fn edges() -> Vec<Edge> {
    let mut edges: Vec<Edge> = Vec::new();
    for (words, floors) in triples() {
        for (edge, floor) in ["7999", "7999 and too thin", "8000"].iter().zip(floors) {
            edges.push((format!("weak edges, {words}, edge {edge}"), floor));
        }
    }
    for (words, edged) in SUMS {
        edges.push((format!("weak edges, {words}"), edged.floor()));
    }
    edges.into_iter().enumerate().map(with_sides).collect()
}
