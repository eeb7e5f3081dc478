//! The verdict in words.

use super::limits::broken;
use super::panels;
use crate::judge::Accepted;

const CLEAR: &str =
    "clear: no limit of the Direct Design Method (ACI 318-14, 8.10.2) is broken and the slab is thick enough\n";

/// Every broken limit, all together, with its places, and each panel's least thickness.
pub fn page(accepted: &Accepted, all: bool) -> String {
    let floor = &accepted.floor;
    let (nx, ny) = (floor.x_spans.len(), floor.y_spans.len());
    format!(
        "accepted, {nx} by {ny} bays, slab {} mm\n{}\n{}",
        floor.t,
        limits(accepted, all),
        panels::grid(accepted)
    )
}

fn limits(accepted: &Accepted, all: bool) -> String {
    let (verdict, places) = (accepted.verdict, accepted.places.len());
    if verdict == 0 {
        return CLEAR.to_string();
    }
    let mut page = format!("not clear, verdict {verdict}:\n");
    let mut lines = 0;
    for limit in broken(verdict) {
        page += &limit.line();
        for words in limit.places(accepted, all) {
            page += &format!("        {words}\n");
            lines += 1;
        }
    }
    page += "moments stand only on a floor that is clear\n";
    if lines < places {
        page += &format!("some lines stand for several places; `slab check --all` has a line for each of the {places}\n");
    }
    page
}
