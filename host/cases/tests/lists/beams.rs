//! The floors at the edges of what the α of beams decide: that each is where its words say.

use crate::floors::all_floors;
use cases::floors::Described;
use floor::Floor;
use reference::panel::{panels, x_line_alphas, x_spans, y_line_alphas, y_spans};
use reference::verdict::judge;
use std::collections::BTreeSet;

/// Along x as they are described; what lies across is the same by `floors_transposed`.
fn described(start: &str) -> Vec<&'static Described> {
    let words = |floor: &Described| {
        floor.description.starts_with(start) && !floor.description.ends_with(", across")
    };
    all_floors().iter().filter(|floor| words(floor)).collect()
}

/// "p = (sum of α of its two x lines)·Y², q = (sum of α of its two y lines)·X²" of each panel.
fn p_and_q(floor: &[u8]) -> Vec<(u128, u128)> {
    let (on_x, on_y) = (x_line_alphas(floor), y_line_alphas(floor));
    let (x, y) = (x_spans(floor), y_spans(floor));
    let of_panel = |(i, j): (usize, usize)| {
        let p = (on_x[j] + on_x[j + 1]) * y[j].pow(2);
        let q = (on_y[i] + on_y[i + 1]) * x[i].pow(2);
        (p, q)
    };
    panels(floor).into_iter().map(of_panel).collect()
}

/// With a bay each way 1 is broken, and nothing else.
#[test]
fn stiffnesses_that_are_equal() {
    let floors = described("p = 5q");
    assert_eq!(floors.len(), 12);
    for floor in floors {
        let equal = |(p, q): (u128, u128)| p == 5 * q;
        let words = &floor.description;
        assert!(p_and_q(&floor.bytes).into_iter().all(equal), "{words}");
        assert!(matches!(judge(&floor.bytes), (0, 0 | 1)), "{words}");
    }
}

#[test]
fn stiffnesses_past_the_limit() {
    let floors = described("p past 5q");
    assert!(floors.len() >= 20);
    for floor in floors {
        assert!(
            matches!(judge(&floor.bytes), (0, 32 | 33)),
            "{}",
            floor.description
        );
    }
    let by_one = &described("p past 5q by one of α")[0].bytes;
    let past = p_and_q(by_one)
        .into_iter()
        .filter_map(|(p, q)| p.checked_sub(5 * q));
    assert_eq!(past.max(), Some(3_000 * 3_000));
}

/// Whether it is on an outer line, its width, its depth and t.
type Beam = (bool, u32, u32, u32);

fn beams(floor: &Floor) -> Vec<Beam> {
    let mut beams = Vec::new();
    for lines in [&floor.x_lines, &floor.y_lines] {
        for (line, &(width, depth)) in lines.iter().enumerate() {
            let outer = line == 0 || line + 1 == lines.len();
            beams.push((outer, width, depth, floor.t));
        }
    }
    beams
}

/// "f = min(h − t, 4t)" on either side of its edge, the shallowest, the narrowest, the widest and deepest,
/// each where a mm of some beam breaks the limit.
#[test]
fn beams_where_stiffnesses_are_equal() {
    let mut seen = BTreeSet::new();
    for floor in described("p = 5q") {
        let floor = Floor::of(&floor.bytes).unwrap();
        for (outer, width, depth, t) in beams(&floor) {
            for (words, is) in [
                ("h − t = 4t − 1", depth + 1 == 5 * t),
                ("h − t = 4t", depth == 5 * t),
                ("h − t = 4t + 1", depth == 5 * t + 1),
                ("shallow", depth == t + 1),
                ("narrow", width == 150),
                ("1,000 by 1,500", (width, depth, t) == (1_000, 1_500, 375)),
            ] {
                if is {
                    seen.insert((words, outer));
                }
            }
        }
    }
    assert_eq!(seen.len(), 2 * 6, "{seen:?}");
}

/// "S > 80000" and "8000 < S" in the inner panel: past the first edge a thinner slab will do, past the second
/// a thicker one is asked.
#[test]
fn sums_at_their_edges() {
    let sum = |floor: &&Described| {
        let (x, y) = (x_line_alphas(&floor.bytes), y_line_alphas(&floor.bytes));
        x[1] + x[2] + y[1] + y[2]
    };
    let floors = described("S = ");
    let found: Vec<_> = floors
        .iter()
        .map(|floor| (sum(floor), judge(&floor.bytes)))
        .collect();
    let right = [
        (80_000, (0, 64)),
        (80_001, (0, 0)),
        (80_000, (0, 64)),
        (8_000, (0, 0)),
        (8_001, (0, 64)),
    ];
    assert_eq!(found, right);
}

/// "A = min(10000, α·l2/l1)", where l2 is l1.
#[test]
fn ratios_at_their_edge() {
    let floor = &described("A at 10000")[0].bytes;
    assert_eq!(judge(floor), (0, 0));
    assert_eq!(x_line_alphas(floor), [9_999, 9_999, 10_000, 10_000]);
    assert_eq!(y_line_alphas(floor), [10_001, 10_001, 10_000, 9_999]);
}

/// α of a beam over W with no rounding of the inertia: over the beam's area both terms are whole.
fn alpha_unrounded((outer, b, h, t): Beam, frame_width: u128) -> u128 {
    let [b, h, t] = [b, h, t].map(u128::from);
    let f = (h - t).min(4 * t);
    let p = if outer { f } else { 2 * f };
    let area = b * h + p * t;
    let inertia = (b * h.pow(3) + p * t.pow(3)) * area + 3 * b * h * p * t * (h - t).pow(2);
    10_000 * inertia / (area * frame_width * t.pow(3))
}

/// "the last term rounded down": W is 3,200 outside and 6,000 inside, where every line tells; 3,500 inside
/// where S is 80000 by it, and two lines tell.
#[test]
fn inertias_rounded_down() {
    for (start, outside, inside, telling) in [
        ("the inertia's last term", 3_200, 6_000, 8),
        ("S = 80000 by rounding down", 2_500, 3_500, 2),
    ] {
        let bytes = &described(start)[0].bytes;
        let alphas = [x_line_alphas(bytes), y_line_alphas(bytes)].concat();
        let beams = beams(&Floor::of(bytes).unwrap());
        let tells = |(beam, alpha): &(Beam, u128)| {
            let width = if beam.0 { outside } else { inside };
            alpha_unrounded(*beam, width) == alpha + 1
        };
        let found = beams.into_iter().zip(alphas).filter(tells).count();
        assert_eq!(found, telling, "{start}");
    }
}

#[test]
fn shallow_beams() {
    let bytes = &described("beams barely deeper")[0].bytes;
    assert_eq!(judge(bytes), (0, 0));
    let floor = Floor::of(bytes).unwrap();
    let deeper: BTreeSet<u32> = beams(&floor)
        .iter()
        .map(|(_, _, depth, t)| depth - t)
        .collect();
    assert_eq!(deeper, BTreeSet::from([1, 2]));
}
