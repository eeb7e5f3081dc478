//! What a comparison should have met and has not: a generator that decays is noticed.

use crate::steel::OTHER_DEFAULTS;
use crate::tally::{
    BarSort, BeamSort, Before, Counts, DefaultSort, Listed, Opened, Said, Scheduled, Slice, Step,
    Tally,
};
use cases::runs::changes::KINDS;
use reference::schedule::Lack;
use std::collections::BTreeSet;

/// Each that is not there, in words.
fn missing<K: Ord + Copy>(
    counts: &Counts<K>,
    wanted: impl IntoIterator<Item = K>,
    words: impl Fn(K) -> String,
) -> Vec<String> {
    let wanted = wanted.into_iter();
    let missing = wanted.filter(|key| !counts.has(key));
    missing.map(words).collect()
}

fn unless(holds: bool, words: impl Into<String>) -> Vec<String> {
    match holds {
        true => Vec::new(),
        false => vec![words.into()],
    }
}

/// "nx 1..12", "ny 1..12"
fn missing_bays(tally: &Tally) -> Vec<String> {
    let found = tally.bays.iter().map(|(&bays, _)| bays);
    let (nx, ny): (BTreeSet<u128>, BTreeSet<u128>) = found.unzip();
    let missing = (1..=12).filter(|bays| !nx.contains(bays) || !ny.contains(bays));
    missing
        .map(|bays| format!("{bays} bays each way"))
        .collect()
}

/// Of the four sides each has three codes.
const SIDES: usize = 81;
const LAYOUTS: usize = 3;

/// Each in one floor of a hundred or more.
const OFTEN: [BeamSort; 12] = [
    BeamSort::Shallow,
    BeamSort::FlangeBelow,
    BeamSort::FlangeEqual,
    BeamSort::FlangeAbove,
    BeamSort::SumAt(8_000),
    BeamSort::SumPast(8_000),
    BeamSort::SumAt(80_000),
    BeamSort::SumPast(80_000),
    BeamSort::EdgeBelow,
    BeamSort::EdgeFrom,
    BeamSort::CornerHalfWeak,
    BeamSort::ThinByAnEdge,
];

fn rare_beams(tally: &Tally) -> Vec<String> {
    let floors = tally.undamaged.total();
    let rare = OFTEN
        .iter()
        .filter(|sort| 100 * tally.beams.of(sort) <= floors);
    rare.map(|sort| format!("one floor of a hundred: {sort}"))
        .collect()
}

fn missing_of_clear(tally: &Tally) -> Vec<String> {
    let one_place = [1, 2, 4, 8, 16, 32, 64].map(Said::NoByOnePlace);
    let refused = (1..=7).map(Said::Refused);
    let wanted = [Said::Yes, Said::No].into_iter();
    let wanted = wanted.chain(one_place).chain(refused);
    missing(&tally.clear, wanted, |said| {
        format!("a floor asked whether it is clear: {said:?}")
    })
}

const SLICES: [Slice; 6] = [
    Slice::Exact,
    Slice::OneShort,
    Slice::Shorter,
    Slice::Empty,
    Slice::Longer,
    Slice::AlwaysSuffices,
];

fn missing_of_places(tally: &Tally) -> Vec<String> {
    let refused = (1..=7).chain([25]).map(Listed::Refused);
    let told = [Listed::None, Listed::One, Listed::Several].into_iter();
    let one = [1, 2, 4, 8, 16, 32, 64].map(|limit| (limit, false));
    let several = [1, 2, 4, 8, 32, 64].map(|limit| (limit, true));
    let of_limits = one.into_iter().chain(several);
    [
        missing(&tally.places, told.chain(refused), |listed| {
            format!("a floor asked for its places: {listed:?}")
        }),
        missing(&tally.slices, SLICES, |slice| {
            format!("a slice for places: {slice}")
        }),
        missing(&tally.places_of_limits, of_limits, |(limit, several)| {
            let places = if several {
                "several places"
            } else {
                "one place"
            };
            format!("a floor with {places} of limit {limit}")
        }),
    ]
    .concat()
}

fn missing_of_schedules(tally: &Tally) -> Vec<String> {
    let refused = (1..=7).chain([15, 16]).map(Scheduled::Refused);
    let told = [
        Scheduled::Written,
        Scheduled::FirstUnbarred,
        Scheduled::LaterUnbarred,
        Scheduled::UnbarredAlongY,
    ];
    let bars = [10, 12, 16].map(BarSort::Of).into_iter();
    let bars = bars.chain([BarSort::Closest, BarSort::Widest, BarSort::Exact]);
    let lacks = [Lack::Width, Lack::Area, Lack::Bar];
    [
        missing(&tally.schedules, told.into_iter().chain(refused), |told| {
            format!("a floor asked for its schedule: {told:?}")
        }),
        missing(&tally.buffers, SLICES, |slice| {
            format!("a buffer for a schedule: {slice}")
        }),
        missing(&tally.bars, bars, |bars| format!("bars: {bars}")),
        missing(&tally.lacks, lacks, |lack| {
            format!("a strip without its {lack:?}")
        }),
        rare_layers(tally),
    ]
    .concat()
}

/// Where every strip takes its least area no depth is told from another.
fn rare_layers(tally: &Tally) -> Vec<String> {
    let written = tally.schedules.of(&Scheduled::Written);
    let layers = [BarSort::FirstLayer, BarSort::SecondLayer].into_iter();
    let rare = layers.filter(|sort| 2 * tally.bars.of(sort) <= written);
    rare.map(|sort| format!("one schedule of two: bars {sort}"))
        .collect()
}

fn missing_addresses(tally: &Tally) -> Vec<String> {
    let number_places = [
        (&tally.table_addresses, "a table at each of 4 addresses"),
        (&tally.governing_addresses, "a slice at each of 4 addresses"),
        (&tally.places_addresses, "places at each of 4 addresses"),
    ];
    [
        unless(
            tally.floor_addresses.kinds() == 16,
            "a floor at each of 16 addresses",
        ),
        unless(
            tally.schedule_addresses.kinds() == 16,
            "a schedule at each of 16 addresses",
        ),
        number_places
            .map(|(places, words)| unless(places.kinds() == 4, words))
            .concat(),
    ]
    .concat()
}

pub fn floors(tally: &Tally) -> Vec<String> {
    let refused = |number| Opened::Refused(number);
    let clear = tally.undamaged.of(&Opened::Clear);
    [
        unless(
            3 * clear >= 2 * tally.undamaged.total(),
            "clear floors, two of three",
        ),
        missing(&tally.limits, [1, 2, 4, 8, 16, 32, 64], |limit| {
            format!("a floor that breaks limit {limit}")
        }),
        missing(&tally.damaged, (1..=8).chain([13]).map(refused), |opened| {
            format!("a damaged floor: {opened:?}")
        }),
        missing_of_clear(tally),
        missing_of_places(tally),
        missing_of_schedules(tally),
        missing(&tally.panels, [0, 1, 2, 3, 4, 5, 6, 7, 10], |number| {
            format!("a panel query: refusal {number}")
        }),
        unless(tally.layouts.kinds() == LAYOUTS, "a layout"),
        unless(tally.sides.kinds() == SIDES, "some choice of sides"),
        missing_bays(tally),
        rare_beams(tally),
        missing_addresses(tally),
    ]
    .concat()
}

/// What changes that keep a floor clear are to be made on, in words.
type Meant = (&'static str, fn(&Before) -> bool);

const MEANT: [Meant; 4] = [
    ("a right table", |before| before.table_is_right),
    ("a wrong table", |before| !before.table_is_right),
    ("a slice that agrees", |before| before.slice_agrees),
    ("a slice that does not", |before| !before.slice_agrees),
];

fn missing_before(tally: &Tally, kind: u16) -> Vec<String> {
    let found = |meant: fn(&Before) -> bool| {
        let found = |(of_kind, before): &(u16, Before)| *of_kind == kind && meant(before);
        tally.kept_clear.sum(found) > 0
    };
    let missing = MEANT.iter().filter(|(_, meant)| !found(*meant));
    missing
        .map(|(words, _)| format!("a change of kind {kind} that keeps a floor clear, on {words}"))
        .collect()
}

pub fn changes(tally: &Tally) -> Vec<String> {
    let taken = [
        Step::KeptClear,
        Step::Broke,
        Step::Mended,
        Step::StayedBroken,
    ];
    let refused = (1..=9).chain([13]).map(Step::Refused);
    let steps = taken.into_iter().chain(refused);
    let kept_clear = tally.changes.of(&Step::KeptClear);
    [
        unless(
            2 * kept_clear >= tally.changes.total(),
            "changes that keep a floor clear, one of two",
        ),
        missing(&tally.changes, steps, |step| format!("a change: {step:?}")),
        KINDS
            .iter()
            .flat_map(|&kind| missing_before(tally, kind))
            .collect(),
        unless(
            tally.kept_clear.sum(|(_, before)| before.ties) > 0,
            "a change that makes a tie",
        ),
        unless(
            tally.change_addresses.kinds() == 16,
            "a change at each of 16 addresses",
        ),
    ]
    .concat()
}

pub fn steel(tally: &Tally) -> Vec<String> {
    let told = OTHER_DEFAULTS.map(DefaultSort::ToldFrom).into_iter();
    let rare = told.filter(|sort| 20 * tally.defaults.of(sort) <= tally.steel.total());
    let mut lacking = missing(&tally.steel, [0, 11, 12], |number| {
        format!("a steel query: refusal {number}")
    });
    lacking.extend(rare.map(|sort| format!("one steel query of twenty: d = 0 {sort}")));
    lacking
}

pub fn all(tally: &Tally) -> Vec<String> {
    [floors(tally), changes(tally), steel(tally)].concat()
}
