//! Changes: "A change tries 1 to 7 on the held floor, 9, then 5 to 7 on the changed floor".

use crate::{assert_refusals, case, cases};
use reference::change::change;

#[test]
fn refusal_9() {
    assert_refusals(&[
        ("change: 0 bytes of x spans", 9),
        ("change: 15 bytes of x spans", 9),
        ("change: 17 bytes of x spans", 9),
        ("change: 32 bytes of x spans", 9),
        ("change: kind 0", 9),
        ("change: kind 1", 9),
        ("change: kind 2", 9),
        ("change: kind 4", 9),
        ("change: kind 10", 9),
        ("change: sizes 0 as it was", 9),
        ("change: materials 0 as it was", 9),
        ("change: columns 0 as it was", 9),
        ("change: kind 259", 9),
        ("change: kind 261", 9),
        ("change: loads 1 that the floor lacks", 9),
        ("change: loads 256 that the floor lacks", 9),
        ("change: x span 2 that the floor lacks", 9),
        ("change: y span 1 that the floor lacks", 9),
        ("change: x line beam 2 that the floor lacks", 9),
        ("change: y line beam 3 that the floor lacks", 9),
        ("change: offset 6 that the floor lacks", 9),
        ("change: offset 256 that the floor lacks", 9),
        ("change: loads c 1", 9),
        ("change: x span b 1", 9),
        ("change: y span c 2147483648", 9),
        ("change: x line beam c 16777216", 9),
        ("change: y line beam c 1", 9),
        ("change: offset c 1", 9),
    ]);
}

#[test]
fn the_changed_floor_is_judged() {
    assert_refusals(&[
        ("change: dead 999", 5),
        ("change: dead 1000", 0),
        ("change: live 50001", 5),
        ("change: x span 1010", 5),
        ("change: y span 12020", 5),
        ("change: x line beam width 0", 5),
        ("change: y line beam depth 0", 5),
        ("change: offset along x 12000", 0),
        ("change: offset along y 12001", 5),
        ("change: x span 0 of 1180, columns 600 by 700", 6),
        ("change: x span 0 of 1200, columns 600 by 700", 0),
        ("change: y span 1 of 1380, columns 600 by 700", 6),
        ("change: y span 1 of 1400, columns 600 by 700", 0),
        ("change: x line 0 of depth 200, t 200", 7),
        ("change: x line 0 of depth 201, t 200", 0),
        ("change: y line 3 of depth 200, t 200", 7),
        (
            "change: no beam on x line 0, was x lines 111, y lines 1111",
            7,
        ),
        (
            "change: a beam on y line 2, was x lines 101, y lines 1001",
            7,
        ),
        (
            "change: a beam on x line 0, was x lines 000, y lines 0000",
            7,
        ),
        ("change: a beam on y line 1, was x lines 11, y lines 101", 0),
        (
            "change: no beam on y line 1, was x lines 11, y lines 111",
            0,
        ),
        ("change: no beam on x line 1, was x lines 11, y lines 11", 7),
    ]);
}

#[test]
fn the_order_of_a_changes_refusals() {
    assert_refusals(&[
        ("change: of 0 bytes on a floor refused 1 by a byte more", 1),
        ("change: of 0 bytes on a floor refused 2 by t 89", 2),
        ("change: of 0 bytes on a floor refused 3 by ny 3", 3),
        (
            "change: of 0 bytes on a floor refused 4 in the last offset",
            4,
        ),
        ("change: good on a floor refused 5 in the materials", 5),
        (
            "change: of 0 bytes on a floor refused 6 in the last y span",
            6,
        ),
        ("change: good on a floor refused 7 in x line 0", 7),
        ("change: mends a floor refused 5", 5),
        ("change: mends a floor refused 6", 6),
        ("change: on an empty file", 1),
        ("change: 17 bytes and x span 980", 9),
        ("change: kind 2 and fc 19", 9),
        ("change: loads 1 and dead 0", 9),
        ("change: y span b 1 and span 980", 9),
        ("change: x line 2 and no beam", 9),
        ("change: offset 6 and 12001", 9),
        ("change: beam 149 wide and of depth t", 5),
    ]);
}

/// "Refusals write nothing."
#[test]
fn a_refused_change_leaves_the_floor() {
    let mut refused = 0;
    for case in cases() {
        let Some(bytes) = &case.change else { continue };
        let (refusal, after) = change(&case.floor, bytes);
        if refusal != 0 {
            assert_eq!(after, case.floor, "{}", case.description);
            refused += 1;
        }
    }
    assert!(refused > 100, "{refused} refused changes");
}

#[test]
fn a_change_may_alter_nothing() {
    for record in [
        "loads 0",
        "x span 2",
        "y span 1",
        "x line beam 2",
        "y line beam 3",
        "offset 11",
    ] {
        let case = case(&format!("change: {record} as it was"));
        let bytes = case.change.as_ref().unwrap();
        assert_eq!(change(&case.floor, bytes), (0, case.floor.clone()));
    }
}
