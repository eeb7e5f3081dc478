//! What was compared, by sorts.

use reference::schedule::Lack;
use std::collections::BTreeMap;
use std::fmt;

/// How many there were of each.
#[derive(Clone, Debug, PartialEq, Eq)]
pub struct Counts<K: Ord>(BTreeMap<K, u64>);

impl<K: Ord> Default for Counts<K> {
    fn default() -> Counts<K> {
        Counts(BTreeMap::new())
    }
}

impl<K: Ord> Counts<K> {
    pub fn add(&mut self, key: K) {
        self.add_many(key, 1);
    }

    pub fn add_many(&mut self, key: K, count: u64) {
        *self.0.entry(key).or_default() += count;
    }

    pub fn of(&self, key: &K) -> u64 {
        self.0.get(key).copied().unwrap_or(0)
    }

    pub fn has(&self, key: &K) -> bool {
        self.0.contains_key(key)
    }

    pub fn total(&self) -> u64 {
        self.0.values().sum()
    }

    /// How many there were of those that are meant.
    pub fn sum(&self, meant: impl Fn(&K) -> bool) -> u64 {
        let meant = self.0.iter().filter(|(key, _)| meant(key));
        meant.map(|(_, count)| count).sum()
    }

    /// How many different ones there were.
    pub fn kinds(&self) -> usize {
        self.0.len()
    }

    pub fn iter(&self) -> impl Iterator<Item = (&K, u64)> {
        self.0.iter().map(|(key, &count)| (key, count))
    }

    fn merge(&mut self, other: Counts<K>) {
        for (key, count) in other.0 {
            self.add_many(key, count);
        }
    }
}

/// What an opening made of a floor.
#[derive(Clone, Copy, Debug, PartialEq, Eq, PartialOrd, Ord)]
pub enum Opened {
    Clear,
    Broken,
    Refused(u128),
}

/// What a floor is told that is asked whether it is clear.
#[derive(Clone, Copy, Debug, PartialEq, Eq, PartialOrd, Ord)]
pub enum Said {
    Yes,
    /// For two places or more.
    No,
    /// And the limit that is broken there.
    NoByOnePlace(u128),
    Refused(u128),
}

/// What a floor is told that is asked for its places.
#[derive(Clone, Copy, Debug, PartialEq, Eq, PartialOrd, Ord)]
pub enum Listed {
    None,
    One,
    Several,
    Refused(u128),
}

/// What a floor is told that is asked for its schedule.
#[derive(Clone, Copy, Debug, PartialEq, Eq, PartialOrd, Ord)]
pub enum Scheduled {
    Written,
    /// 17, by the first record of all.
    FirstUnbarred,
    /// 17, by a later record of an x frame.
    LaterUnbarred,
    /// 17, where all x frames could be written.
    UnbarredAlongY,
    Refused(u128),
}

/// What is met among a schedule's bars.
#[derive(Clone, Copy, Debug, PartialEq, Eq, PartialOrd, Ord)]
pub enum BarSort {
    /// A bar of this diameter.
    Of(u128),
    /// At 80.
    Closest,
    /// At 2t, or the multiple of 10 below it.
    Widest,
    /// Bar area times width is area times spacing.
    Exact,
    /// In an x frame, an area that is another at t − 27, and so at t − 38.
    FirstLayer,
    /// In a y frame, an area that is another at t − 37, and so at t − 26.
    SecondLayer,
}

impl fmt::Display for BarSort {
    fn fmt(&self, f: &mut fmt::Formatter) -> fmt::Result {
        match self {
            BarSort::Of(diameter) => write!(f, "{diameter} mm"),
            BarSort::Closest => write!(f, "at 80"),
            BarSort::Widest => write!(f, "at 2t"),
            BarSort::Exact => write!(f, "just enough"),
            BarSort::FirstLayer => write!(f, "along x told from t − 27"),
            BarSort::SecondLayer => write!(f, "along y told from t − 37"),
        }
    }
}

/// What is met of a steel query with d = 0 (02, Six).
#[derive(Clone, Copy, Debug, PartialEq, Eq, PartialOrd, Ord)]
pub enum DefaultSort {
    /// It is in range.
    Asked,
    /// It has another answer where 0 stands for t less so many mm.
    ToldFrom(u128),
}

impl fmt::Display for DefaultSort {
    fn fmt(&self, f: &mut fmt::Formatter) -> fmt::Result {
        match self {
            DefaultSort::Asked => write!(f, "in range"),
            DefaultSort::ToldFrom(less) => write!(f, "told from t − {less}"),
        }
    }
}

/// What is lent for a floor's places, by how many numbers these take, or for its schedule, by its bytes.
#[derive(Clone, Copy, Debug, PartialEq, Eq, PartialOrd, Ord)]
pub enum Slice {
    Exact,
    OneShort,
    Shorter,
    Empty,
    Longer,
    AlwaysSuffices,
}

impl fmt::Display for Slice {
    fn fmt(&self, f: &mut fmt::Formatter) -> fmt::Result {
        f.write_str(match self {
            Slice::Exact => "exactly enough",
            Slice::OneShort => "one short",
            Slice::Shorter => "shorter",
            Slice::Empty => "empty",
            Slice::Longer => "longer",
            Slice::AlwaysSuffices => "what always suffices",
        })
    }
}

/// What decides how stiff a beam's flange is, how stiff beams are to be (02, Two), and which edges are weak (02,
/// Three).
#[derive(Clone, Copy, Debug, PartialEq, Eq, PartialOrd, Ord)]
pub enum BeamSort {
    /// h = t + 1
    Shallow,
    /// h − t below 4t, equal to it, above it.
    FlangeBelow,
    FlangeEqual,
    FlangeAbove,
    /// With beams everywhere: S within a hundredth of 8000 or 80000 and not past it, or past it.
    SumAt(u128),
    SumPast(u128),
    /// On an outer line: α within a hundredth of 8000, below it or not.
    EdgeBelow,
    EdgeFrom,
    /// α below 8000 on one of the two outer lines of a panel.
    CornerHalfWeak,
    /// Limit 64 is broken, and would not be if every edge were strong.
    ThinByAnEdge,
}

impl fmt::Display for BeamSort {
    fn fmt(&self, f: &mut fmt::Formatter) -> fmt::Result {
        match self {
            BeamSort::Shallow => write!(f, "h = t + 1"),
            BeamSort::FlangeBelow => write!(f, "h − t below 4t"),
            BeamSort::FlangeEqual => write!(f, "h − t = 4t"),
            BeamSort::FlangeAbove => write!(f, "h − t above 4t"),
            BeamSort::SumAt(edge) => write!(f, "S up to {edge}"),
            BeamSort::SumPast(edge) => write!(f, "S past {edge}"),
            BeamSort::EdgeBelow => write!(f, "an edge just below 8000"),
            BeamSort::EdgeFrom => write!(f, "an edge just not below 8000"),
            BeamSort::CornerHalfWeak => write!(f, "a corner with one weak edge of two"),
            BeamSort::ThinByAnEdge => write!(f, "too thin by a weak edge alone"),
        }
    }
}

/// What a change did.
#[derive(Clone, Copy, Debug, PartialEq, Eq, PartialOrd, Ord)]
pub enum Step {
    KeptClear,
    Broke,
    Mended,
    StayedBroken,
    Refused(u128),
}

/// What is lent, before a change.
#[derive(Clone, Copy, Debug, PartialEq, Eq, PartialOrd, Ord)]
pub struct Before {
    /// Whether the table is known to be right.
    pub table_is_right: bool,
    /// Whether the governing slice is what the table makes it, right or wrong.
    pub slice_agrees: bool,
    /// Whether wrong numbers in the table make ties at supports that the change writes.
    pub ties: bool,
}

#[derive(Clone, Debug, Default, PartialEq, Eq)]
pub struct Tally {
    /// Floors that were drawn, and are as they were drawn or at the edge of a limit.
    pub undamaged: Counts<Opened>,
    /// And those that are clear but for one place.
    pub single: Counts<Opened>,
    /// And those that are broken here and there or everywhere.
    pub scattered: Counts<Opened>,
    /// And those that can just be barred or just not.
    pub for_bars: Counts<Opened>,
    pub damaged: Counts<Opened>,
    /// Of the floors that are not refused: the limits that they break, and bays.
    pub limits: Counts<u128>,
    pub bays: Counts<(u128, u128)>,
    /// And what was met of their beams, once for each floor.
    pub beams: Counts<BeamSort>,
    /// Of the clear ones.
    pub layouts: Counts<&'static str>,
    pub sides: Counts<u128>,
    pub clear: Counts<Said>,
    pub places: Counts<Listed>,
    /// Of the broken floors: what they were lent for their places, and the limits with one place or with several.
    pub slices: Counts<Slice>,
    pub places_of_limits: Counts<(u128, bool)>,
    pub schedules: Counts<Scheduled>,
    /// Of the clear floors: what they were lent for their schedules, what bars they have, once for each floor, or what the first strip lacks that has
    /// none.
    pub buffers: Counts<Slice>,
    pub bars: Counts<BarSort>,
    pub lacks: Counts<Lack>,
    /// Panel queries, by their refusal or 0.
    pub panels: Counts<u128>,
    pub changes: Counts<Step>,
    /// Of those that kept a clear floor clear: their kind, and what they were made on.
    pub kept_clear: Counts<(u16, Before)>,
    /// All changes, by what they were made on.
    pub before: Counts<Before>,
    /// Steel queries, by their refusal or 0.
    pub steel: Counts<u128>,
    /// And what was met of those with d = 0.
    pub defaults: Counts<DefaultSort>,
    /// Where lent buffers started, from one address that 16 divides to the next.
    pub floor_addresses: Counts<usize>,
    pub table_addresses: Counts<usize>,
    pub governing_addresses: Counts<usize>,
    pub places_addresses: Counts<usize>,
    pub change_addresses: Counts<usize>,
    pub schedule_addresses: Counts<usize>,
}

impl Tally {
    pub fn merge(&mut self, other: Tally) {
        self.undamaged.merge(other.undamaged);
        self.single.merge(other.single);
        self.scattered.merge(other.scattered);
        self.for_bars.merge(other.for_bars);
        self.damaged.merge(other.damaged);
        self.limits.merge(other.limits);
        self.bays.merge(other.bays);
        self.beams.merge(other.beams);
        self.layouts.merge(other.layouts);
        self.sides.merge(other.sides);
        self.clear.merge(other.clear);
        self.places.merge(other.places);
        self.slices.merge(other.slices);
        self.places_of_limits.merge(other.places_of_limits);
        self.schedules.merge(other.schedules);
        self.buffers.merge(other.buffers);
        self.bars.merge(other.bars);
        self.lacks.merge(other.lacks);
        self.panels.merge(other.panels);
        self.changes.merge(other.changes);
        self.kept_clear.merge(other.kept_clear);
        self.before.merge(other.before);
        self.steel.merge(other.steel);
        self.defaults.merge(other.defaults);
        self.floor_addresses.merge(other.floor_addresses);
        self.table_addresses.merge(other.table_addresses);
        self.governing_addresses.merge(other.governing_addresses);
        self.places_addresses.merge(other.places_addresses);
        self.change_addresses.merge(other.change_addresses);
        self.schedule_addresses.merge(other.schedule_addresses);
    }

    pub fn floors(&self) -> u64 {
        let drawn = self.undamaged.total() + self.single.total() + self.scattered.total();
        drawn + self.for_bars.total() + self.damaged.total()
    }
}
