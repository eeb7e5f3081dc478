//! A plain text, to be written otherwise or wrongly.

use floor::Floor;
use slab::text::read;

/// 2 by 1 bays, so x lines 0 and 1, y lines 0 to 2. Line 10 is the last.
pub const PLAIN: &str = "\
slab 200
concrete 30
steel 420
dead 7200
live 5000
columns 600 500
sides west columns, east unrestrained, south restrained, north columns
x spans 6600 7200
y spans 6000
column 2 1 offset 250 30
";

pub fn plain() -> Floor {
    Floor {
        t: 200,
        fc: 30,
        fy: 420,
        dead: 7_200,
        live: 5_000,
        cx: 600,
        cy: 500,
        sides: 4 + 2 * 16,
        x_spans: vec![6_600, 7_200],
        y_spans: vec![6_000],
        x_lines: vec![(0, 0); 2],
        y_lines: vec![(0, 0); 3],
        offsets: vec![(0, 0), (0, 0), (0, 0), (0, 0), (0, 0), (250, 30)],
    }
}

pub fn floor(text: &str) -> Floor {
    read::floor(text.as_bytes()).unwrap_or_else(|faults| panic!("{faults:?}"))
}

pub fn with(line: &str) -> String {
    format!("{PLAIN}{line}\n")
}

/// The one line that begins with the key, written otherwise.
pub fn with_line(key: &str, line: &str) -> String {
    let lines = PLAIN
        .lines()
        .map(|old| if old.starts_with(key) { line } else { old });
    lines.map(|line| format!("{line}\n")).collect()
}
