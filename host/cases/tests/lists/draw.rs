//! Drawn numbers.

use cases::draw::Draw;

/// Figures published for splitmix64 from 1234567.
#[test]
fn figures_of_the_generator() {
    let mut draw = Draw::starting_at(1_234_567);
    for expected in [
        6_457_827_717_110_365_317,
        3_203_168_211_198_807_973,
        9_817_491_932_198_370_423,
        4_593_380_528_125_082_431,
        16_408_922_859_458_223_821,
    ] {
        assert_eq!(draw.bits(), expected);
    }
}

#[test]
fn both_ends_are_drawn() {
    let mut draw = Draw::starting_at(1);
    let drawn: Vec<u128> = (0..200).map(|_| draw.between(5, 7)).collect();
    assert!([5, 6, 7].iter().all(|number| drawn.contains(number)));
    assert!(drawn.iter().all(|number| (5..=7).contains(number)));
    assert_eq!(draw.between(9, 9), 9);
}
