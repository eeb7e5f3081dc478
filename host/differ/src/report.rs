//! The counts in words.

use crate::tally::{Before, Counts, Listed, Opened, Said, Scheduled, Step, Tally};
use reference::schedule::Lack;
use std::fmt::Display;

/// 1234567 as 1,234,567.
pub fn grouped(number: u64) -> String {
    let digits = number.to_string();
    let mut grouped = String::new();
    for (place, digit) in digits.chars().enumerate() {
        if place > 0 && (digits.len() - place).is_multiple_of(3) {
            grouped.push(',');
        }
        grouped.push(digit);
    }
    grouped
}

/// "3: 1,204, 5: 77"
fn listed<K: Ord + Display>(counts: &Counts<K>) -> String {
    let pairs = counts.iter();
    let pairs: Vec<String> = pairs
        .map(|(key, count)| format!("{key}: {}", grouped(count)))
        .collect();
    pairs.join(", ")
}

/// Those alone that have a number, as refusals and limits have, and 0 stands for none.
fn numbered<K: Ord>(counts: &Counts<K>, number: impl Fn(&K) -> u128) -> Counts<u128> {
    let mut numbered = Counts::default();
    for (key, count) in counts.iter() {
        if number(key) != 0 {
            numbered.add_many(number(key), count);
        }
    }
    numbered
}

fn opened(words: &str, counts: &Counts<Opened>) -> String {
    let refused = numbered(counts, |opened| match opened {
        Opened::Refused(number) => *number,
        _ => 0,
    });
    format!(
        "  {words}: {}, of them {} clear, {} broken, {} refused ({})\n",
        grouped(counts.total()),
        grouped(counts.of(&Opened::Clear)),
        grouped(counts.of(&Opened::Broken)),
        grouped(refused.total()),
        listed(&refused)
    )
}

fn floors(tally: &Tally) -> String {
    format!(
        "floors: {}\n{}{}{}{}{}  limits broken: {}\n  clear floors: {}; {} choices of sides\n  bays: {} pairs, 12 by 12 {} times\n  beams: {}\n",
        grouped(tally.floors()),
        opened("undamaged", &tally.undamaged),
        opened("clear but for one place", &tally.single),
        opened("broken here and there or everywhere", &tally.scattered),
        opened("just barred or just not", &tally.for_bars),
        opened("damaged", &tally.damaged),
        listed(&tally.limits),
        listed(&tally.layouts),
        tally.sides.kinds(),
        tally.bays.kinds(),
        grouped(tally.bays.of(&(12, 12))),
        listed(&tally.beams),
    )
}

fn queries(name: &str, counts: &Counts<u128>) -> String {
    let refused = numbered(counts, |&number| number);
    format!(
        "{name}: {}, of them {} answered, {} refused ({})\n",
        grouped(counts.total()),
        grouped(counts.of(&0)),
        grouped(refused.total()),
        listed(&refused)
    )
}

fn clear(said: &Counts<Said>) -> String {
    let one_place = numbered(said, |said| match said {
        Said::NoByOnePlace(limit) => *limit,
        _ => 0,
    });
    let refused = numbered(said, |said| match said {
        Said::Refused(number) => *number,
        _ => 0,
    });
    format!(
        "asked whether clear: {}, of them {} yes, {} no, {} refused ({})\n  no by one place alone: {} (limit {})\n",
        grouped(said.total()),
        grouped(said.of(&Said::Yes)),
        grouped(said.of(&Said::No) + one_place.total()),
        grouped(refused.total()),
        listed(&refused),
        grouped(one_place.total()),
        listed(&one_place),
    )
}

fn places(tally: &Tally) -> String {
    let told = &tally.places;
    let refused = numbered(told, |told| match told {
        Listed::Refused(number) => *number,
        _ => 0,
    });
    let several = numbered(&tally.places_of_limits, |(limit, several)| match several {
        true => *limit,
        false => 0,
    });
    format!(
        "asked for places: {}, of them {} none, {} one, {} several, {} refused ({})\n  \
         several of one limit: {} (limit {})\n  lent to broken floors: {}\n",
        grouped(told.total()),
        grouped(told.of(&Listed::None)),
        grouped(told.of(&Listed::One)),
        grouped(told.of(&Listed::Several)),
        grouped(refused.total()),
        listed(&refused),
        grouped(several.total()),
        listed(&several),
        listed(&tally.slices),
    )
}

fn schedules(tally: &Tally) -> String {
    let told = &tally.schedules;
    let refused = numbered(told, |told| match told {
        Scheduled::Written => 0,
        Scheduled::FirstUnbarred | Scheduled::LaterUnbarred | Scheduled::UnbarredAlongY => 17,
        Scheduled::Refused(number) => *number,
    });
    let lacks = [
        (Lack::Width, "width"),
        (Lack::Area, "area"),
        (Lack::Bar, "bar"),
    ]
    .map(|(lack, words)| format!("no {words}: {}", grouped(tally.lacks.of(&lack))));
    format!(
        "asked for schedules: {}, of them {} written, {} refused ({})\n  bars, in so many floors: {}\n  \
         refused 17 by {}; {} times by the first record, {} in y frames alone\n  lent to clear floors: {}\n",
        grouped(told.total()),
        grouped(told.of(&Scheduled::Written)),
        grouped(refused.total()),
        listed(&refused),
        listed(&tally.bars),
        lacks.join(", "),
        grouped(told.of(&Scheduled::FirstUnbarred)),
        grouped(told.of(&Scheduled::UnbarredAlongY)),
        listed(&tally.buffers),
    )
}

fn changes(tally: &Tally) -> String {
    let steps = &tally.changes;
    let refused = numbered(steps, |step| match step {
        Step::Refused(number) => *number,
        _ => 0,
    });
    let kept_clear = |meant: fn(&Before) -> bool| {
        let counts = tally.kept_clear.sum(|(_, before)| meant(before));
        grouped(counts)
    };
    let before = |meant: fn(&Before) -> bool| grouped(tally.before.sum(meant));
    format!(
        "changes: {}\n  taken: {} from clear to clear ({} of them on wrong tables, {} on slices that do not agree with the table, {} with ties), \
         {} into a broken verdict, {} out of one, {} between two\n  \
         refused: {} ({})\n  on right tables: {}, on wrong tables: {}\n  \
         on slices that agree with the table: {}, on slices that do not: {}\n",
        grouped(steps.total()),
        grouped(steps.of(&Step::KeptClear)),
        kept_clear(|before| !before.table_is_right),
        kept_clear(|before| !before.slice_agrees),
        kept_clear(|before| before.ties),
        grouped(steps.of(&Step::Broke)),
        grouped(steps.of(&Step::Mended)),
        grouped(steps.of(&Step::StayedBroken)),
        grouped(refused.total()),
        listed(&refused),
        before(|before| before.table_is_right),
        before(|before| !before.table_is_right),
        before(|before| before.slice_agrees),
        before(|before| !before.slice_agrees),
    )
}

pub fn report(tally: &Tally) -> String {
    [
        floors(tally),
        clear(&tally.clear),
        places(tally),
        schedules(tally),
        queries("panel queries", &tally.panels),
        changes(tally),
        queries("steel queries", &tally.steel),
        format!("  with d = 0: {}\n", listed(&tally.defaults)),
    ]
    .concat()
}

#[cfg(test)]
mod tests {
    use super::*;

    #[test]
    fn digits_in_groups() {
        for (number, words) in [
            (0, "0"),
            (999, "999"),
            (1_000, "1,000"),
            (123_456, "123,456"),
            (1_234_567, "1,234,567"),
        ] {
            assert_eq!(grouped(number), words);
        }
    }
}
