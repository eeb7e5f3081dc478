//! Each panel's least thickness beside the slab's, as on a plan.

use crate::judge::Accepted;

/// North is up; a panel for which the library lists the slab as too thin is marked.
pub fn grid(accepted: &Accepted) -> String {
    let t = accepted.floor.t;
    let bays: Vec<String> = (0..accepted.floor.x_spans.len())
        .map(|bay| format!("{bay:>4} "))
        .collect();
    let mut lines = vec![
        format!("least thickness of each panel in mm, north up, west left; slab {t}, * above it"),
        format!("  x bay     {}", bays.concat()),
    ];
    for (j, row) in accepted.least.iter().enumerate().rev() {
        let mark = |i| if accepted.is_thin(i, j) { '*' } else { ' ' };
        let cells = row.iter().enumerate();
        let cells = cells.map(|(i, least)| format!("{least:>4}{}", mark(i)));
        let cells: Vec<String> = cells.collect();
        lines.push(format!("  y bay {j:>2}  {}", cells.concat()));
    }
    let trimmed = lines.iter().map(|line| format!("{}\n", line.trim_end()));
    trimmed.collect()
}
