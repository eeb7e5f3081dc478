//! The floor that is kept as an example: a bus garage of 5 by 4 bays with beams on every line.

use floor::Floor;

/// Wider bays where the buses turn, deeper beams on the outer lines, and two columns moved for a door.
pub fn garage() -> Floor {
    Floor {
        t: 200,
        fc: 30,
        fy: 420,
        dead: 7_200,
        live: 5_000,
        cx: 600,
        cy: 500,
        sides: 0,
        x_spans: vec![6_600, 7_200, 7_500, 7_200, 6_600],
        y_spans: vec![6_000, 7_000, 7_000, 6_400],
        x_lines: vec![(400, 700), (350, 650), (350, 650), (350, 650), (400, 700)],
        y_lines: vec![
            (400, 700),
            (350, 600),
            (380, 650),
            (380, 650),
            (350, 600),
            (400, 700),
        ],
        offsets: offsets(),
    }
}

/// Of 6 by 5 columns: the one on y line 2 and x line 0, the one on y line 3 and x line 1.
fn offsets() -> Vec<(u32, u32)> {
    let mut offsets = vec![(0, 0); 30];
    offsets[2] = (250, 0);
    offsets[9] = (150, 200);
    offsets
}
