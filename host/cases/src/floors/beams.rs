//! Floors at the edges of what the α of beams decide (02, Two). Their beams were found by trying, with the
//! inertia of document 001.

use floor::Floor;

pub type Edge = (String, Floor);

pub fn edges() -> Vec<Edge> {
    [
        equal_stiffnesses(),
        alpha_sums(),
        vec![beam_ratios(), rounded_inertias(), shallow_beams()],
    ]
    .concat()
}

/// Width and depth.
pub type Beam = (u32, u32);

/// On outer lines, and on inner ones.
type Beams = [Beam; 2];

/// Between columns of half a span, or 1,500, all x lines have one α and all y lines another: p = 5q in each
/// panel.
struct Even {
    words: &'static str,
    bays: (usize, usize),
    t: u32,
    /// Along x, along y.
    spans: (u32, u32),
    stiff: Beams,
    weak: Beams,
}

const fn even(words: &'static str, t: u32, stiff: Beams, weak: Beams) -> Even {
    Even {
        words,
        bays: (3, 4),
        t,
        spans: (3_000, 3_000),
        stiff,
        weak,
    }
}

/// "f = min(h − t, 4t)": under 100 both are 400 for a beam 500 deep. No inner beam has the α of the widest and
/// deepest one on an outer line, which is why that stands in a single bay, where all lines are outer.
const EVEN: [Even; 12] = [
    even(
        "some beams",
        200,
        [(950, 300), (370, 410)],
        [(470, 223), (470, 240)],
    ),
    Even {
        spans: (2_000, 3_000),
        ..even(
            "unlike spans",
            200,
            [(686, 320), (450, 380)],
            [(580, 230), (315, 290)],
        )
    },
    even(
        "h − t 1 below 4t outside",
        100,
        [(235, 499), (655, 406)],
        [(650, 231), (533, 260)],
    ),
    even(
        "h − t 1 below 4t inside",
        100,
        [(692, 377), (265, 499)],
        [(658, 229), (190, 330)],
    ),
    even(
        "h − t = 4t outside",
        100,
        [(181, 500), (310, 457)],
        [(904, 197), (200, 310)],
    ),
    even(
        "h − t = 4t inside",
        100,
        [(278, 449), (201, 500)],
        [(620, 219), (245, 294)],
    ),
    even(
        "h − t 1 above 4t outside",
        100,
        [(609, 501), (800, 491)],
        [(220, 390), (985, 280)],
    ),
    even(
        "h − t 1 above 4t inside",
        100,
        [(365, 398), (158, 501)],
        [(761, 195), (501, 235)],
    ),
    even(
        "shallow beams",
        200,
        [(630, 270), (520, 305)],
        [(323, 201), (430, 201)],
    ),
    even(
        "the narrowest beams",
        200,
        [(230, 295), (1_000, 210)],
        [(150, 208), (150, 219)],
    ),
    Even {
        spans: (3_300, 3_300),
        ..even(
            "the widest and deepest beam inside",
            375,
            [(864, 1_483), (1_000, 1_500)],
            [(598, 992), (460, 1_102)],
        )
    },
    Even {
        bays: (1, 1),
        ..even(
            "the widest and deepest beam outside",
            375,
            [(1_000, 1_500); 2],
            [(643, 1_020); 2],
        )
    },
];

fn on_lines(bays: usize, [outer, inner]: Beams) -> Vec<Beam> {
    let on_line = |line| match line == 0 || line == bays {
        true => outer,
        false => inner,
    };
    (0..=bays).map(on_line).collect()
}

impl Even {
    fn floor(&self) -> Floor {
        let (nx, ny) = self.bays;
        let (x_span, y_span) = self.spans;
        Floor {
            t: self.t,
            cx: (x_span / 2).min(1_500),
            cy: (y_span / 2).min(1_500),
            x_spans: vec![x_span; nx],
            y_spans: vec![y_span; ny],
            x_lines: on_lines(ny, self.stiff),
            y_lines: on_lines(nx, self.weak),
            ..Floor::good(nx, ny)
        }
    }

    /// As it is, and past the limit by a mm of one beam's width, where 01 allows it.
    fn floors(&self) -> Vec<Edge> {
        let words = self.words;
        let floor = self.floor();
        let mut edges = vec![(format!("p = 5q, {words}"), floor.clone())];
        if floor.x_lines[0].0 < 1_000 {
            let mut wider = floor.clone();
            wider.x_lines[0].0 += 1;
            edges.push((format!("p past 5q, {words}, x line 0 wider"), wider));
        }
        if floor.y_lines[1].0 > 150 {
            let mut narrower = floor.clone();
            narrower.y_lines[1].0 -= 1;
            edges.push((format!("p past 5q, {words}, y line 1 narrower"), narrower));
        }
        edges
    }
}

/// "p > 5q or q > 5p", at last with p − 5q = Y²: on x line 2 α is 15,006 in place of 15,005.
fn equal_stiffnesses() -> Vec<Edge> {
    let mut edges: Vec<Edge> = EVEN.iter().flat_map(Even::floors).collect();
    let mut floor = EVEN[0].floor();
    floor.x_lines[2] = (790, 340);
    edges.push(("p past 5q by one of α".to_string(), floor));
    edges
}

/// Three bays each way, with what stands on the inner lines.
struct Inner {
    words: &'static str,
    t: u32,
    span: u32,
    column: u32,
    outer: Beam,
    on_x: [Beam; 2],
    on_y: [Beam; 2],
}

/// All four α are 20,000 and ask for 125.
const AT_80000: Inner = Inner {
    words: "S = 80000",
    t: 100,
    span: 3_000,
    column: 1_500,
    outer: (300, 300),
    on_x: [(178, 276); 2],
    on_y: [(178, 276); 2],
};

/// All four α are 2,000 and ask for 4620/33 = 140.
const AT_8000: Inner = Inner {
    words: "S = 8000",
    t: 140,
    span: 5_400,
    column: 780,
    outer: (300, 270),
    on_x: [(210, 220); 2],
    on_y: [(210, 220); 2],
};

/// One α is 20,001, for which less than 100 will do; they are 20,643 and 19,357, and with the inertia's last
/// term not rounded down the first would be 20,644; one is 2,001, which asks for 4620·1.1/36.
const SUMS: [Inner; 5] = [
    AT_80000,
    Inner {
        words: "S = 80001",
        on_x: [(178, 276), (190, 272)],
        ..AT_80000
    },
    Inner {
        words: "S = 80000 by rounding down",
        t: 91,
        span: 3_500,
        on_x: [(819, 182); 2],
        on_y: [(504, 204); 2],
        ..AT_80000
    },
    AT_8000,
    Inner {
        words: "S = 8001",
        on_x: [(210, 220), (256, 210)],
        ..AT_8000
    },
];

/// "S > 80000" and "8000 < S" in the inner panel alone.
fn alpha_sums() -> Vec<Edge> {
    let mut edges = Vec::new();
    for inner in SUMS {
        let lines = |[low, high]: [Beam; 2]| vec![inner.outer, low, high, inner.outer];
        let floor = Floor {
            t: inner.t,
            cx: inner.column,
            cy: inner.column,
            x_spans: vec![inner.span; 3],
            y_spans: vec![inner.span; 3],
            x_lines: lines(inner.on_x),
            y_lines: lines(inner.on_y),
            ..Floor::good(3, 3)
        };
        edges.push((inner.words.to_string(), floor));
    }
    edges
}

/// Bays of 6,000 and columns of 400: A is α, but no more than 10000.
fn square(t: u32, x_lines: [Beam; 4], y_lines: [Beam; 4]) -> Floor {
    Floor {
        t,
        x_lines: x_lines.to_vec(),
        y_lines: y_lines.to_vec(),
        ..Floor::clear(3, 3)
    }
}

/// "A = min(10000, α·l2/l1)": α is 9,999, 9,999, 10,000, 10,000 on x lines, 10,001, 10,001, 10,000, 9,999 on
/// y lines.
fn beam_ratios() -> Edge {
    let x_lines = [(850, 305), (500, 416), (559, 405), (435, 369)];
    let y_lines = [(898, 300), (323, 460), (185, 520), (580, 341)];
    ("A at 10000".to_string(), square(200, x_lines, y_lines))
}

/// "the last term rounded down": unrounded or rounded up it would make every α one more.
fn rounded_inertias() -> Edge {
    let x_lines = [(351, 288), (336, 324), (576, 324), (528, 324)];
    let y_lines = [(528, 324), (576, 324), (336, 324), (756, 288)];
    let words = "the inertia's last term rounded down";
    (words.to_string(), square(216, x_lines, y_lines))
}

/// "a line has a beam whose depth is not above t": above it by 1 and by 2, the narrowest and the widest.
fn shallow_beams() -> Edge {
    let lines = [(150, 201), (1_000, 201), (150, 202), (1_000, 202)];
    (
        "beams barely deeper than the slab".to_string(),
        square(200, lines, lines),
    )
}
