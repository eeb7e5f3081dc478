//! Drawn floors that can just be barred, and that just cannot: by their loads, and by the width of a beam.

use super::beams::edge_between;
use super::drawn::of_bays;
use cases::draw::Draw;
use cases::floors::drawn::thick;
use cases::floors::LAYOUTS;
use floor::Floor;
use reference::layout::Layout;
use reference::refusals::SUCCESS;
use reference::schedule::entries;
use reference::verdict::judge;

fn is_clear(floor: &Floor) -> bool {
    judge(&floor.bytes()) == (SUCCESS, 0)
}

/// 17, of a clear floor.
fn cannot_be_barred(floor: &Floor) -> bool {
    is_clear(floor) && entries(&floor.bytes()).is_none()
}

/// Few bays, for the reference works out many floors on the way to one.
fn few_bays(draw: &mut Draw, layout: Layout) -> Floor {
    let bays = (draw.between(3, 4), draw.between(3, 4));
    of_bays(draw, bays, layout)
}

/// The heaviest load that can be barred and the next; now and then a light one and the next.
pub fn by_load(draw: &mut Draw) -> (Floor, Floor) {
    let (layout, _) = draw.one_of(&LAYOUTS);
    let share = draw.between(0, 200);
    loop {
        let floor = few_bays(draw, layout);
        let loaded = |dead: u32| Floor {
            dead,
            live: (dead * share / 100).min(50_000),
            ..floor.clone()
        };
        let light = draw.between(1_000, 3_000);
        let edge = match draw.percent(20) {
            true => Some((light, light + 1)),
            false => edge_between(1_000, 30_000, |dead| cannot_be_barred(&loaded(dead))),
        };
        if let Some((at, past)) = edge {
            return (loaded(at), loaded(past));
        }
    }
}

/// "wc, less the beam's width": on short spans the widest beam of a line that leaves enough of its column strip, and the next.
pub fn by_beam(draw: &mut Draw) -> (Floor, Floor) {
    loop {
        let floor = of_short_spans(draw);
        let line = draw.between(0, floor.x_lines.len() - 1);
        let with_width = |width| {
            let mut floor = floor.clone();
            floor.x_lines[line].0 = width;
            floor
        };
        let edge = edge_between(150, 1_000, |width| cannot_be_barred(&with_width(width)));
        let Some((at, past)) = edge.map(|(at, past)| (with_width(at), with_width(past))) else {
            continue;
        };
        if is_clear(&at) {
            return match draw.percent(50) {
                true => (at.transposed(), past.transposed()),
                false => (at, past),
            };
        }
    }
}

fn of_short_spans(draw: &mut Draw) -> Floor {
    let floor = few_bays(draw, Layout::Everywhere);
    let mut span = || 20 * draw.between(50, 110);
    let (along, across) = (span(), span());
    let x_spans = vec![along; floor.x_spans.len()];
    let y_spans = vec![across; floor.y_spans.len()];
    let t = thick(&x_spans, &y_spans);
    let depth = t + draw.between(20, 400);
    let width = draw.between(150, 400);
    Floor {
        t,
        dead: draw.between(1_000, 30_000),
        live: 0,
        cx: 200,
        cy: 200,
        x_lines: vec![(width, depth); floor.x_lines.len()],
        y_lines: vec![(width, depth); floor.y_lines.len()],
        offsets: vec![(0, 0); floor.offsets.len()],
        x_spans,
        y_spans,
        ..floor
    }
}
