//! The fixer's sheet and the bar schedule: what stands on them, once for each rendering.

pub mod date;
mod escape;
mod frames;
pub mod html;
mod layers;
pub mod schedule;
pub mod text;
pub mod unbarred;
pub mod units;

pub use frames::{frames, Found, Frame, Row, Span, Support};

use crate::judge::{Bars, Held, Moments, Schedule};
use crate::say::{limits, refusal};
use floor::Floor;

pub struct Sheet {
    pub name: String,
    pub date: String,
    pub content: Content,
}

pub enum Content {
    Clear {
        facts: String,
        /// What is said of the bars, or why there are none.
        bars: Result<String, String>,
        frames: Vec<Frame>,
    },
    /// The sentence of each broken limit. There is no figure.
    Broken(Vec<&'static str>),
}

pub const CLEAR: &str =
    "clear: no limit of the Direct Design Method is broken and the slab is thick enough";
pub const BROKEN: &str = "not clear: no moment stands, and nothing may be built from this sheet";
pub const WHAT: &str = "What is broken:";

/// The parts of a section, in the library's order.
pub const PARTS: [&str; 5] = [
    "total",
    "column strip",
    "middle strip",
    "beam",
    "slab of column strip",
];
pub const SUPPORTS: &str = "larger moment of the two faces at each support";

/// The strips that have bars, in the library's order.
pub const BAR_HEADS: [&str; 2] = ["bars, column strip", "bars, middle strip"];

impl Sheet {
    pub fn of(held: &Held, name: String, date: String) -> Sheet {
        let content = match held.moments() {
            Some(moments) => clear(held, &moments),
            None => {
                let broken = limits::broken(held.verdict());
                Content::Broken(broken.map(limits::Limit::sentence).collect())
            }
        };
        Sheet {
            name,
            date,
            content,
        }
    }
}

fn clear(held: &Held, moments: &Moments) -> Content {
    let floor = held.floor();
    let schedule = Schedule::of(held.file());
    Content::Clear {
        facts: facts(&floor),
        frames: frames(Found {
            floor: &floor,
            moments,
            schedule: schedule.as_ref().ok(),
        }),
        bars: schedule.map(|_| of_bars(&floor)).map_err(refusal::no_bars),
    }
}

/// `10 @ 150`
fn spaced(bars: &Bars) -> String {
    format!("{} @ {}", bars.diameter, bars.spacing)
}

pub fn facts(floor: &Floor) -> String {
    let Floor {
        t,
        fc,
        fy,
        dead,
        live,
        ..
    } = floor;
    format!(
        "slab {t} mm, concrete fc {fc} MPa, steel fy {fy} MPa, \
         dead load {dead} N/m² (slab included), live load {live} N/m²"
    )
}

fn of_bars(floor: &Floor) -> String {
    let layers = layers::note(floor.t);
    format!("Bars: diameter @ spacing in mm; those of the column strip lie in its slab, beside the beam. {layers}")
}

/// `beside` is what else stands with each moment.
fn notes(beside: &str, bars: &Result<String, String>) -> String {
    let mut notes = format!(
        "Moments in kN·m, rounded up to the next 0.01{beside}. Top and bottom say where in the slab the steel lies. \
         Lines, spans and supports count from 0; x lines run west to east, y lines south to north. \
         Column strip: beam and slab together."
    );
    if let Ok(bars) = bars {
        notes += &format!(" {bars}");
    }
    notes
}
