//! The figures of 01.

use super::Described;
use reference::steel::Query;

/// "M 2,195,000, b 1,000, t 150, d 124, fc 30, fy 420: 484; *M 0: 270; M 20,000,000: refusal 12", the
/// same with d 0, which now stands for 112 (02, Six), the first of them where it stands for 124, and a
/// strip in which not even the minimum fits.
pub fn queries() -> Vec<Described> {
    [
        ("figure of 01, 484", [2_195_000, 1_000, 150, 124, 30, 420]),
        ("figure of 01, 270", [0, 1_000, 150, 124, 30, 420]),
        (
            "figure of 01, refusal 12",
            [20_000_000, 1_000, 150, 124, 30, 420],
        ),
        ("540 with d 0", [2_195_000, 1_000, 150, 0, 30, 420]),
        ("270 with d 0", [0, 1_000, 150, 0, 30, 420]),
        ("refusal 12 with d 0", [20_000_000, 1_000, 150, 0, 30, 420]),
        ("484 with d 0, t 162", [2_195_000, 1_000, 162, 0, 30, 420]),
        ("no room for the minimum", [0, 1, 500, 50, 20, 280]),
    ]
    .map(|(words, numbers)| Described::new(words, Query::of(numbers)))
    .to_vec()
}
