//! "A change tries 1 to 7 on the held floor, 9, then 5 to 7 on the changed floor".

use crate::hand_made::{self, record, TWO_BY_ONE};
use reference::change::{change, judge};

/// Where the typed records of `TWO_BY_ONE` stand, counted by hand: record n starts at byte 16n.
#[test]
fn a_change_replaces_its_record_and_nothing_else() {
    let held = hand_made::floor(TWO_BY_ONE);
    for (text, start) in [
        ("3 0 7000 0 0", 32),
        ("5 0 5020 0 0", 64),
        ("5 1 6020 0 0", 80),
        ("6 0 7020 0 0", 96),
        ("7 0 150 181 0", 112),
        ("7 1 150 181 0", 128),
        ("8 0 150 181 0", 144),
        ("8 1 150 181 0", 160),
        ("8 2 150 181 0", 176),
        ("9 0 12000 0 0", 192),
        ("9 5 0 12000 0", 272),
    ] {
        let mut expected = held.clone();
        expected[start..start + 16].copy_from_slice(&record(text));
        assert_ne!(expected, held, "{text}");
        assert_eq!(change(&held, &record(text)), (0, expected), "{text}");
    }
}

/// "the whole changed floor is judged in a copy before one byte is stored": what is judged good is at
/// hand before it counts as stored, so 8 can still refuse it.
#[test]
fn a_judged_change_is_handed_over_and_a_refused_one_is_not() {
    let held = hand_made::floor(TWO_BY_ONE);
    let mut expected = held.clone();
    expected[96..112].copy_from_slice(&record("6 0 7020 0 0"));
    assert_eq!(judge(&held, &record("6 0 7020 0 0")), Ok(expected));
    assert_eq!(judge(&held, &record("6 0 7010 0 0")), Err(5));
    assert_eq!(judge(&held, &record("6 1 7020 0 0")), Err(9));
}
