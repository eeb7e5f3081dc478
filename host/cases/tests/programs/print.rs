//! The printing program, held against the sheet of every described floor.

use cases::floors::{self, Described};
use cases::program::{first_difference, printed};
use reference::sheet::sheet;
use reference::verdict::judge;

fn assert_printed(inputs: &[Described]) {
    for input in inputs {
        let printed = printed("print", &input.bytes);
        if let Some(difference) = first_difference(&sheet(&input.bytes), &printed) {
            panic!("{}: {difference}", input.description);
        }
    }
}

#[test]
fn every_described_floor() {
    assert_printed(&floors::all());
}

/// 3,569, 3,584, 3,600, 1,000,000 and 1,000,016 bytes among them.
#[test]
fn inputs_longer_than_any_floor() {
    assert_printed(&floors::long::inputs());
}

#[test]
fn there_are_floors_enough_of_every_sort() {
    let floors = floors::all();
    let judged: Vec<(u128, u128)> = floors.iter().map(|floor| judge(&floor.bytes)).collect();
    let clear = judged.iter().filter(|&&judged| judged == (0, 0)).count();
    assert!(floors.len() >= 260, "{} floors", floors.len());
    assert!(clear >= 140, "{clear} clear floors");
    for limit in [1, 2, 4, 8, 16, 32, 64] {
        let broken = |&(refused, verdict): &(u128, u128)| refused == 0 && verdict & limit != 0;
        assert!(judged.iter().any(broken), "limit {limit}");
    }
    for refusal in 1..=7 {
        assert!(judged.contains(&(refusal, 255)), "refusal {refusal}");
    }
}

/// Of those longer than any floor some are refused for their length, their sizes and their records.
#[test]
fn there_are_long_inputs_of_every_sort() {
    let inputs = floors::long::inputs();
    assert!(inputs.iter().all(|input| input.bytes.len() > 3_568));
    for refusal in 1..=3 {
        let refused = |input: &Described| judge(&input.bytes) == (refusal, 255);
        assert!(inputs.iter().any(refused), "refusal {refusal}");
    }
}
