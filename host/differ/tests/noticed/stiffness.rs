//! Libraries that take another α for a beam than 02, Two, does.

use crate::{assert_noticed, noticed_in_floors};
use differ::job::{Calls, LIBRARY};
use floor::Floor;
use gandhrumil::Answer;
use reference::floor_file::{records_of_kind, sizes};
use reference::layout::{layout, x_lines, y_lines, Layout, Line};
use reference::panel::{adjoining, columns, outer_alphas, x_spans, y_spans};
use reference::stiffness::{flange, frame_width};
use reference::thickness::{clear_span, least_thickness, Panel};
use reference::verdict::too_unlike;

/// Of a beam over W and t.
type Rule = fn(Line, u128, u128) -> u128;

/// "b·h³ + p·t³ + 3·(b·h)·(p·t)·(h − t)²/(b·h + p·t)" with p, what stands for (h − t)², and one more for the
/// last term.
fn with(line: Line, t: u128, p: u128, squared: u128, more: u128) -> u128 {
    let (b, h) = (line.width, line.depth);
    let (web, flanges) = (b * h, p * t);
    b * h.pow(3) + p * t.pow(3) + 3 * web * flanges * squared / (web + flanges) + more
}

fn over(inertias: u128, w: u128, t: u128) -> u128 {
    10_000 * inertias / (w * t.pow(3))
}

fn p(line: Line, f: u128) -> u128 {
    if line.outer {
        f
    } else {
        2 * f
    }
}

/// "k = 4 inside, 3 outside (the factors 2 and 1.5 of document 000)", as it was.
fn by_factors(line: Line, w: u128, t: u128) -> u128 {
    let k = if line.outer { 3 } else { 4 };
    10_000 * k * line.width * line.depth.pow(3) / (2 * w * t.pow(3))
}

fn one_flange_inside(line: Line, w: u128, t: u128) -> u128 {
    let squared = (line.depth - t).pow(2);
    over(with(line, t, flange(line.depth, t), squared, 0), w, t)
}

fn not_squared(line: Line, w: u128, t: u128) -> u128 {
    let p = p(line, flange(line.depth, t));
    over(with(line, t, p, line.depth - t, 0), w, t)
}

fn wide_flange(line: Line, w: u128, t: u128) -> u128 {
    let below = line.depth - t;
    over(with(line, t, p(line, below), below.pow(2), 0), w, t)
}

fn rounded_up(line: Line, w: u128, t: u128) -> u128 {
    let p = p(line, flange(line.depth, t));
    over(with(line, t, p, (line.depth - t).pow(2), 1), w, t)
}

const RULES: [Rule; 5] = [
    by_factors,
    one_flange_inside,
    not_squared,
    wide_flange,
    rounded_up,
];
const WIDE_FLANGE: usize = 3;
const ROUNDED_UP: usize = 4;

fn alphas(rule: Rule, lines: Vec<Line>, spans: &[u128], column: u128, t: u128) -> Vec<u128> {
    let lines = lines.into_iter().enumerate();
    let of_line = |(number, line)| rule(line, frame_width(adjoining(number, spans, column)), t);
    lines.map(of_line).collect()
}

/// Of x lines and of y lines, with beams everywhere.
fn both_alphas(rule: Rule, floor: &[u8]) -> (Vec<u128>, Vec<u128>) {
    let ((cx, cy), t) = (columns(floor), sizes(floor).t);
    (
        alphas(rule, x_lines(floor), &y_spans(floor), cy, t),
        alphas(rule, y_lines(floor), &x_spans(floor), cx, t),
    )
}

/// The right library, but for the least thickness with beams everywhere.
fn panel_by<const RULE: usize>(floor: &[u8], x: u64, y: u64) -> Answer {
    let answer = gandhrumil::panel(floor, x, y);
    if answer.refusal != 0 || layout(floor) != Some(Layout::Everywhere) {
        return answer;
    }
    let (on_x, on_y) = both_alphas(RULES[RULE], floor);
    let ((cx, cy), (i, j)) = (columns(floor), (x as usize, y as usize));
    let least = least_thickness(Panel {
        layout: Layout::Everywhere,
        least_outer_alpha: outer_alphas(&on_x, &on_y, i, j).into_iter().min(),
        clear_x_span: clear_span(x_spans(floor)[i], cx),
        clear_y_span: clear_span(y_spans(floor)[j], cy),
        alpha_sum: on_x[j] + on_x[j + 1] + on_y[i] + on_y[i + 1],
        fy: records_of_kind(floor, 2)[0].b,
    });
    Answer {
        value: least as u32,
        ..answer
    }
}

/// The right library, but for limit 32.
fn open_by<const RULE: usize>(floor: &[u8], table: &mut [u32], governing: &mut [u32]) -> Answer {
    let answer = gandhrumil::open(floor, table, governing);
    if answer.refusal != 0 || layout(floor) != Some(Layout::Everywhere) {
        return answer;
    }
    let (on_x, on_y) = both_alphas(RULES[RULE], floor);
    let Floor {
        x_spans, y_spans, ..
    } = Floor::of(floor).expect("a floor that is taken");
    let squared = |span: &u32| u128::from(*span).pow(2);
    let mut unlike = false;
    for (y, on_x) in y_spans.iter().map(squared).zip(on_x.windows(2)) {
        for (x, on_y) in x_spans.iter().map(squared).zip(on_y.windows(2)) {
            unlike |= too_unlike((on_x[0] + on_x[1]) * y, (on_y[0] + on_y[1]) * x);
        }
    }
    Answer {
        value: answer.value & !32 | if unlike { 32 } else { 0 },
        ..answer
    }
}

/// A flange that is too wide belongs to beams for which S is past 80000, whatever it is.
#[test]
fn thickness_by_another_alpha() {
    for panel in [panel_by::<0>, panel_by::<1>, panel_by::<2>] {
        let calls = Calls { panel, ..LIBRARY };
        let words = "the library answers refusal 0 and ";
        assert_noticed("floors", calls, words);
        assert!(noticed_in_floors(calls).contains(words));
    }
}

#[test]
fn limit_32_by_another_alpha() {
    for open in [
        open_by::<0>,
        open_by::<1>,
        open_by::<2>,
        open_by::<WIDE_FLANGE>,
    ] {
        let calls = Calls { open, ..LIBRARY };
        let words = "opening: the library answers refusal 0 and ";
        assert_noticed("floors", calls, words);
        assert!(noticed_in_floors(calls).contains(words));
    }
}

/// Seen where S is 80000 by rounding down; drawn floors hardly ever tell.
#[test]
fn the_last_term_rounded_up() {
    let calls = Calls {
        panel: panel_by::<ROUNDED_UP>,
        ..LIBRARY
    };
    let noticed = noticed_in_floors(calls);
    assert!(
        noticed.contains("the library answers refusal 0 and 90, right is refusal 0 and 125"),
        "{noticed}"
    );
}
