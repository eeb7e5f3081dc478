//! Libraries that take weak edges otherwise than 02, Three, does.

use crate::{assert_noticed, assert_noticed_in_runs, noticed_in_floors};
use differ::job::{Calls, LIBRARY};
use gandhrumil::Answer;
use reference::floor_file::{records_of_kind, sides, sizes, Sizes};
use reference::layout::Layout;
use reference::panel::{outer_alphas, panel_numbers, panels, x_line_alphas, y_line_alphas};
use reference::thickness::{least_thickness, Panel};

/// A panel with what a wrong library looks at.
struct Looked {
    panel: Panel,
    /// α of its outer lines, and whether its side has columns.
    outer: Vec<(u128, bool)>,
    /// α of its four lines.
    lines: [u128; 4],
}

/// The least thickness of a panel.
type Rule = fn(&Looked) -> u128;

const WEAK: u128 = 7_999;
const STRONG: u128 = 8_000;

impl Looked {
    fn of(floor: &[u8], i: usize, j: usize) -> Looked {
        let (x, y) = (x_line_alphas(floor), y_line_alphas(floor));
        Looked {
            panel: panel_numbers(floor, i, j),
            outer: outer_alphas(&x, &y, i, j)
                .into_iter()
                .zip(columns_at_sides(floor, i, j))
                .collect(),
            lines: [x[j], x[j + 1], y[i], y[i + 1]],
        }
    }

    fn is_weak(&self) -> bool {
        self.outer.iter().any(|(alpha, _)| *alpha < STRONG)
    }

    fn with_edge(&self, alpha: Option<u128>) -> u128 {
        least_thickness(Panel {
            least_outer_alpha: alpha,
            ..self.panel
        })
    }

    /// The answer of 01, by the table of n or not.
    fn of_01(&self) -> u128 {
        match (&self.panel.layout, self.outer.is_empty()) {
            (Layout::NoBeams, _) | (_, true) => self.with_edge(self.panel.least_outer_alpha),
            _ => self.with_edge(Some(STRONG)),
        }
    }

    fn is_raised(&self) -> bool {
        let Panel {
            layout, alpha_sum, ..
        } = self.panel;
        self.is_weak() && layout == Layout::Everywhere && alpha_sum > 8_000
    }
}

/// Of each outer line of a panel, in the order of `outer_alphas`: south, north, west, east.
fn columns_at_sides(floor: &[u8], i: usize, j: usize) -> Vec<bool> {
    let Sizes { nx, ny, .. } = sizes(floor);
    let sides = sides(records_of_kind(floor, 4)[0].c);
    let touched = [
        (j == 0, sides.south),
        (j + 1 == ny as usize, sides.north),
        (i == 0, sides.west),
        (i + 1 == nx as usize, sides.east),
    ];
    let touched = touched.into_iter().filter(|(touches, _)| *touches);
    touched.map(|(_, code)| code == 0).collect()
}

fn as_01_has_it(looked: &Looked) -> u128 {
    looked.of_01()
}

/// "with α below 8000": ≤ for <.
fn equality_is_weak(looked: &Looked) -> u128 {
    let edge = looked.panel.least_outer_alpha;
    looked.with_edge(edge.map(|alpha| if alpha == STRONG { WEAK } else { alpha }))
}

/// "an outer line": each of a corner's two for one of them.
fn all_edges_must_be_weak(looked: &Looked) -> u128 {
    looked.with_edge(looked.outer.iter().map(|(alpha, _)| *alpha).max())
}

/// The west or the east line alone where a corner has two.
fn the_last_edge_counts(looked: &Looked) -> u128 {
    looked.with_edge(looked.outer.last().map(|(alpha, _)| *alpha))
}

/// "an outer line": any of the four.
fn inner_lines_count(looked: &Looked) -> u128 {
    let weak = looked.lines.iter().any(|alpha| *alpha < STRONG);
    match weak && looked.panel.layout == Layout::Everywhere {
        true => looked.with_edge(Some(WEAK)),
        false => looked.with_edge(looked.panel.least_outer_alpha),
    }
}

/// "the least whole t with 10t ≥ 11 times the answer of 01"
fn ten_percent_rounded_down(looked: &Looked) -> u128 {
    match looked.is_raised() {
        true => 11 * looked.of_01() / 10,
        false => looked.with_edge(looked.panel.least_outer_alpha),
    }
}

/// "11 times the answer of 01", its minimums not raised.
fn minimums_stay(looked: &Looked) -> u128 {
    let right = looked.with_edge(looked.panel.least_outer_alpha);
    match (looked.is_raised(), right) {
        (true, 99) => 90,
        (true, 138) => 125,
        _ => right,
    }
}

/// "Where the table of n applies": ten percent more there too.
fn ten_percent_by_the_table(looked: &Looked) -> u128 {
    match looked.is_weak() && looked.panel.layout != Layout::NoBeams {
        true => (11 * looked.of_01()).div_ceil(10),
        false => looked.of_01(),
    }
}

/// "for columns, walls and masonry edges alike": where there are columns only.
fn columns_only(looked: &Looked) -> u128 {
    let weak = looked
        .outer
        .iter()
        .any(|&(alpha, columns)| columns && alpha < STRONG);
    match weak {
        true => looked.with_edge(Some(WEAK)),
        false => looked.of_01(),
    }
}

const RULES: [Rule; 9] = [
    as_01_has_it,
    equality_is_weak,
    all_edges_must_be_weak,
    the_last_edge_counts,
    inner_lines_count,
    ten_percent_rounded_down,
    minimums_stay,
    ten_percent_by_the_table,
    columns_only,
];

/// The right library, but for the least thickness.
fn panel_by<const RULE: usize>(floor: &[u8], x: u64, y: u64) -> Answer {
    let answer = gandhrumil::panel(floor, x, y);
    match answer.refusal {
        0 => Answer {
            value: RULES[RULE](&Looked::of(floor, x as usize, y as usize)) as u32,
            ..answer
        },
        _ => answer,
    }
}

/// The right library's answer of a floor, but for limit 64.
fn with_limit_64(rule: Rule, floor: &[u8], answer: Answer) -> Answer {
    if answer.refusal != 0 {
        return answer;
    }
    let least = |(i, j)| rule(&Looked::of(floor, i, j));
    let worst = panels(floor).into_iter().map(least).max();
    let thin = worst.is_some_and(|worst| sizes(floor).t < worst);
    Answer {
        value: answer.value & !64 | if thin { 64 } else { 0 },
        ..answer
    }
}

fn open_by<const RULE: usize>(floor: &[u8], table: &mut [u32], governing: &mut [u32]) -> Answer {
    let answer = gandhrumil::open(floor, table, governing);
    with_limit_64(RULES[RULE], floor, answer)
}

fn change_by<const RULE: usize>(
    floor: &mut [u8],
    table: &mut [u32],
    governing: &mut [u32],
    change: &[u8],
) -> Answer {
    let answer = gandhrumil::change(floor, table, governing, change);
    with_limit_64(RULES[RULE], floor, answer)
}

/// By what is drawn and by what is described.
#[track_caller]
fn assert_noticed_in_both(calls: Calls, words: &str) {
    assert_noticed("floors", calls, words);
    let noticed = noticed_in_floors(calls);
    assert!(noticed.contains(words), "{noticed}");
}

#[test]
fn thickness_by_another_rule() {
    for panel in [
        panel_by::<0>,
        panel_by::<1>,
        panel_by::<2>,
        panel_by::<3>,
        panel_by::<4>,
        panel_by::<5>,
        panel_by::<6>,
        panel_by::<7>,
        panel_by::<8>,
    ] {
        let calls = Calls { panel, ..LIBRARY };
        assert_noticed_in_both(calls, "the library answers refusal 0 and ");
    }
}

#[test]
fn limit_64_by_another_rule() {
    for open in [
        open_by::<0>,
        open_by::<1>,
        open_by::<2>,
        open_by::<3>,
        open_by::<4>,
        open_by::<5>,
        open_by::<6>,
        open_by::<7>,
        open_by::<8>,
    ] {
        let calls = Calls { open, ..LIBRARY };
        assert_noticed_in_both(calls, "opening: the library answers refusal 0 and ");
    }
}

/// In what is described; few changes are drawn, and those tell the one that leaves weak edges out.
#[test]
fn limit_64_of_changes_by_another_rule() {
    let words = "the library answers refusal 0 and ";
    for change in [
        change_by::<0>,
        change_by::<1>,
        change_by::<2>,
        change_by::<3>,
        change_by::<4>,
        change_by::<5>,
        change_by::<6>,
        change_by::<7>,
        change_by::<8>,
    ] {
        assert_noticed_in_runs(change, words);
    }
    let without_weak_edges = Calls {
        change: change_by::<0>,
        ..LIBRARY
    };
    assert_noticed("changes", without_weak_edges, words);
}
