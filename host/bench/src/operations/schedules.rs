//! Bar schedules: with bars of 10 mm, where most strips take their least area, and with every bar; refused.

use super::{out_of_range, overloaded, Operation, Work};
use crate::floors::{with_beams, without_beams};
use crate::size::Size;
use cases::floors::schedules::refused_by_the_last;
use floor::Floor;
use reference::schedule::{self, ALWAYS_SUFFICE, BYTES};

/// `right` is the refusal and how many records the schedule is to have, in a buffer of so many bytes.
fn schedule(name: &'static str, floor: &Floor, length: usize, right: (u128, u128)) -> Operation {
    let floor = floor.bytes();
    let given = schedule::schedule(&floor, &mut vec![0; length]);
    assert_eq!(given, right, "{name}");
    Operation {
        name,
        floor,
        work: Work::Schedule(length),
        answer: (right.0 as u32, right.1 as u32),
        writes: 0,
    }
}

/// Six for each record of the table.
fn count(size: Size) -> usize {
    6 * size.records()
}

/// Under loads that bring up every bar.
fn heavy(floor: &Floor) -> Floor {
    Floor {
        dead: 12_000,
        live: 8_000,
        ..floor.clone()
    }
}

pub fn at(size: Size) -> Vec<Operation> {
    let (bare, beams) = (without_beams(size), with_beams(size));
    let count = count(size);
    let whole = |name, floor: &Floor| schedule(name, floor, ALWAYS_SUFFICE, (0, count as u128));
    let refused = |name, floor: &Floor, number| schedule(name, floor, ALWAYS_SUFFICE, (number, 0));
    let last = refused_by_the_last(size.0);
    vec![
        whole("schedule, 10 mm bars, beams everywhere", &beams),
        whole("schedule, 10 mm bars, no beams", &bare),
        whole("schedule, every bar, no beams", &heavy(&bare)),
        refused(
            "schedule, refused 5 by the last record",
            &out_of_range(&beams),
            5,
        ),
        refused("schedule, refused 16 (loads)", &overloaded(&beams), 16),
        schedule(
            "schedule, refused 15 by a byte",
            &beams,
            BYTES * count - 1,
            (15, 0),
        ),
        refused("schedule, refused 17 by the last record", &last, 17),
    ]
}

#[cfg(test)]
mod tests {
    use super::*;
    use crate::SIZES;
    use std::collections::BTreeSet;

    /// The diameters of a floor that has a schedule.
    fn bars(floor: &[u8]) -> BTreeSet<u128> {
        let entries = schedule::entries(floor).expect("a schedule");
        entries.iter().map(|entry| entry.diameter).collect()
    }

    /// Each floor's answer is compared as it is built; 12 by 12 bays have as many records as there can be.
    #[test]
    fn at_every_size() {
        for size in SIZES {
            let operations = at(size);
            assert_eq!(operations.len(), 7);
            let of_whole = operations[..3].iter().map(|whole| bars(&whole.floor));
            let expected: [&[u128]; 3] = [&[10], &[10], &[10, 12, 16]];
            for (bars, expected) in of_whole.zip(expected) {
                assert!(bars.iter().eq(expected), "{bars:?}");
            }
        }
        assert_eq!(BYTES * count(Size(12)), ALWAYS_SUFFICE);
    }
}
