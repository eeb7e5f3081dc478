//! "Only tell me whether it is clear." (02, Four)

use crate::hand_made::{self, ONE_BAY, THIN, TWO_BY_ONE};
use crate::verdict::{even, refused, STIFF, WEAK};
use floor::{Floor, NO_BEAM};
use reference::clear::clear;
use reference::verdict::judge;

const YES: (u128, u128) = (0, 1);
const NO: (u128, u128) = (0, 0);

#[track_caller]
fn assert_said(floor: &Floor, expected: (u128, u128)) {
    assert_eq!(clear(&floor.bytes()), expected, "{floor:?}");
    let transposed = floor.transposed();
    assert_eq!(clear(&transposed.bytes()), expected, "{transposed:?}");
}

/// Without beams, between edge beams and with beams everywhere, all alike.
fn in_every_layout(nx: usize, ny: usize) -> [Floor; 3] {
    const BEAM: (u32, u32) = (300, 600);
    let bare = Floor::clear(nx, ny);
    let everywhere = Floor {
        x_lines: vec![BEAM; ny + 1],
        y_lines: vec![BEAM; nx + 1],
        ..bare.clone()
    };
    let mut edge_beams = everywhere.clone();
    edge_beams.x_lines[1..ny].fill(NO_BEAM);
    edge_beams.y_lines[1..nx].fill(NO_BEAM);
    [bare, edge_beams, everywhere]
}

/// "Yes exactly when the full verdict is 0"
#[test]
fn clear_floors() {
    for (nx, ny) in [(3, 3), (3, 4), (3, 12), (12, 12)] {
        for floor in in_every_layout(nx, ny) {
            assert_said(&floor, YES);
        }
    }
}

/// Two of them break two limits.
#[test]
fn typed_floors() {
    for text in [ONE_BAY, THIN, TWO_BY_ONE] {
        assert_eq!(clear(&hand_made::floor(text)), NO);
    }
}

/// "equality always passes": a limit, a floor at it, and what takes it just past.
pub type Edge = (u128, Floor, fn(&mut Floor));

/// "Neighbours 6,000 and 4,000 pass, 3,980 breaks. Offset 600 on 6,000 passes, 601 breaks. L = 2D passes."
/// Of the others: 6,000 is twice 3,000; p = 5q; 5,600 less 200 is 30 times 180.
pub fn edges() -> Vec<Edge> {
    let floor = || Floor::clear(3, 3);
    let twice = Floor {
        y_spans: vec![3_000; 3],
        ..floor()
    };
    let neighbours = Floor {
        x_spans: vec![5_000, 6_000, 4_000],
        ..floor()
    };
    let offsets = Floor {
        offsets: vec![(600, 600); 16],
        ..floor()
    };
    let loads = Floor {
        dead: 5_000,
        live: 10_000,
        ..floor()
    };
    let thin = Floor {
        t: 180,
        cx: 200,
        cy: 200,
        x_spans: vec![5_600; 3],
        y_spans: vec![5_600; 3],
        ..floor()
    };
    vec![
        (2, twice, |past| past.x_spans[2] = 6_020),
        (4, neighbours, |past| past.x_spans[2] = 3_980),
        (8, offsets, |past| past.offsets[15].0 = 601),
        (16, loads, |past| past.live = 10_001),
        (32, even(3, 3, (3_000, 3_000), (STIFF, WEAK)), |past| {
            past.x_lines[3].0 += 1;
        }),
        (64, thin, |past| past.t = 179),
    ]
}

/// A limit alone is enough for a no.
#[test]
fn each_limit_alone() {
    for (limit, at, alter) in edges() {
        assert_said(&at, YES);
        let mut past = at;
        alter(&mut past);
        assert_eq!(judge(&past.bytes()), (0, limit));
        assert_said(&past, NO);
    }
}

/// 1: "nx or ny below 3."
#[test]
fn three_bays_are_enough() {
    assert_said(&Floor::clear(3, 3), YES);
    for (nx, ny) in [(2, 3), (1, 3), (2, 12), (2, 2)] {
        assert_eq!(judge(&Floor::clear(nx, ny).bytes()), (0, 1));
        assert_said(&Floor::clear(nx, ny), NO);
    }
}

/// "a refused floor answers no with its number."
#[test]
fn refused_floors() {
    for (number, floor) in refused() {
        assert_eq!(clear(&floor), (number, 0));
    }
    assert_eq!(clear(&[]), (1, 0));
    let clear_and_a_byte = [Floor::clear(3, 3).bytes(), vec![0]].concat();
    assert_eq!(clear(&clear_and_a_byte), (1, 0));
}
