//! The steel queries: that every sort is there, and that those at an edge are.

use cases::queries::equal::{moment_is_whole, MINIMA, STRAINS};
use cases::queries::strength::{greatest_area, greatest_moment, least_area};
use cases::queries::{self, Described};
use reference::steel::{answer, depth, k, Query};
use std::collections::BTreeSet;

#[test]
fn no_two_queries_share_a_description() {
    let queries = queries::all();
    let descriptions = queries.iter().map(|given| &given.description[..]);
    let descriptions: BTreeSet<&str> = descriptions.collect();
    assert_eq!(descriptions.len(), queries.len());
}

#[test]
fn there_are_different_queries_enough() {
    let all = queries::all();
    assert!(all.len() >= 2_600, "{}", all.len());
    let queries = all.iter().map(|given| given.query);
    let different: BTreeSet<Query> = queries.collect();
    assert!(different.len() >= 2_500, "{}", different.len());
}

#[test]
fn there_are_queries_enough_of_every_sort() {
    let refusals = queries::all().into_iter();
    let refusals = refusals.map(|given| answer(given.query).0);
    let refusals: Vec<u128> = refusals.collect();
    for (refusal, least) in [(0, 300), (11, 300), (12, 100)] {
        let given = refusals.iter().filter(|&&given| given == refusal).count();
        assert!(given >= least, "refusal {refusal} by {given} queries");
    }
    assert!(refusals.iter().all(|refusal| [0, 11, 12].contains(refusal)));
}

/// Each value is its least, its most, 0, one past either end and all 64 bits in some query.
#[test]
fn every_end_is_tried() {
    let all = queries::all();
    for (place, tried) in [
        (0, vec![0, 1, 1_999_999_999, 2_000_000_000, 2_000_000_001]),
        (1, vec![0, 1, 2, 11_999, 12_000, 12_001]),
        (2, vec![0, 89, 90, 91, 499, 500, 501]),
        (3, vec![0, 1, 49, 50, 51, 474, 475, 476]),
        (4, vec![0, 19, 20, 21, 28, 29, 55, 56, 59, 60, 61]),
        (5, vec![0, 279, 280, 281, 419, 420, 421, 519, 520, 521]),
    ] {
        let numbers = all.iter().map(|given| given.query.numbers()[place]);
        let numbers: BTreeSet<u128> = numbers.collect();
        let mut missing = tried;
        missing.push(u64::MAX.into());
        missing.retain(|number| !numbers.contains(number));
        assert_eq!(missing, [], "place {place}");
    }
}

/// 01's with a stated d, and with d 0 those that the reference's tests work by hand.
#[test]
fn figures_answer_as_said() {
    for (words, expected) in [
        ("figure of 01, 484", (0, 484)),
        ("figure of 01, 270", (0, 270)),
        ("figure of 01, refusal 12", (12, 0)),
        ("540 with d 0", (0, 540)),
        ("270 with d 0", (0, 270)),
        ("refusal 12 with d 0", (12, 0)),
        ("484 with d 0, t 162", (0, 484)),
        ("no room for the minimum", (12, 0)),
    ] {
        assert_eq!(answer(described(words)), expected, "{words}");
    }
}

fn described(words: &str) -> Query {
    let mut all = queries::all().into_iter();
    let given = all.find(|given| given.description == words);
    given
        .unwrap_or_else(|| panic!("no query is described as {words:?}"))
        .query
}

/// "From now on 0 stands for t − 38" (02, Six): with 1 mm less the greatest moment that an area carries takes another
/// answer, with 1 mm more the next moment does. Each t has the minimum, 756·1000·t/420000 rounded up, and the strain
/// limit, 51·1170·30·1000·(t − 38)/(224000·420) rounded down: 989.4, 1008.5, 2131.1 and 8790.7.
#[test]
fn default_depths_are_told_apart() {
    for (t, areas) in [
        (90, [162, 989]),
        (91, [164, 1_008]),
        (150, [270, 2_131]),
        (500, [900, 8_790]),
    ] {
        for area in areas {
            let strip = Query::of([0, 1_000, t, t - 38, 30, 420]);
            let carried = greatest_moment(strip, area);
            let at = |m, d| {
                answer(described(&format!(
                    "default depth, t {t} with M {m}, d {d}"
                )))
            };
            assert_eq!(at(carried, 0), (0, area), "t {t}");
            assert_eq!(at(carried, t - 38), (0, area), "t {t}");
            assert_ne!(at(carried, t - 39), (0, area), "t {t}");
            let next = at(carried + 1, 0);
            assert!(next == (0, area + 1) || next == (12, 0), "t {t}");
            assert_eq!(at(carried + 1, t - 38), next, "t {t}");
            assert_ne!(at(carried + 1, t - 37), next, "t {t}");
            assert_ne!(at(carried + 1, t - 26), next, "t {t}");
        }
    }
}

fn strips(numbers: &[[u128; 5]]) -> Vec<Query> {
    let strip = |&[b, t, d, fc, fy]: &[u128; 5]| Query::of([0, b, t, d, fc, fy]);
    numbers.iter().map(strip).collect()
}

/// The area at the strain limit fits with what it carries, and nothing does with 1 N·cm more.
#[test]
fn strain_limits_are_equal() {
    for strip in strips(STRAINS) {
        let Query { b, fc, fy, .. } = strip;
        let area = greatest_area(strip);
        assert_eq!(224000 * area * fy, 51 * k(fc) * fc * b * depth(strip));
        let m = greatest_moment(strip, area);
        assert_eq!(answer(Query { m, ..strip }), (0, area), "{strip:?}");
        let m = m + 1;
        assert_eq!(answer(Query { m, ..strip }), (12, 0), "{strip:?}");
    }
}

/// The second, the fourth and the seventh are equal: 2·1000·125/1000 = 250, 756·1400·125/420000 = 315
/// and 756·1300·100/520000 = 189.
#[test]
fn minima_are_equal() {
    let least: Vec<u128> = strips(MINIMA).into_iter().map(least_area).collect();
    assert_eq!(least, [250, 250, 251, 315, 313, 318, 189, 189, 190]);
    let answers = strips(MINIMA).into_iter().map(answer);
    assert!(answers.eq(least.into_iter().map(|area| (0, area))));
}

/// 9·425·280·(17·20·1000·124 − 2800·425) is 1,290,555 times 1700·20·1000.
#[test]
fn moments_are_equal() {
    let strip = Query::of([0, 1_000, 150, 124, 20, 280]);
    assert!(moment_is_whole(strip, 425) && !moment_is_whole(strip, 424));
    assert_eq!(greatest_moment(strip, 425), 1_290_555);
    for (m, area) in [(1_290_554, 425), (1_290_555, 425), (1_290_556, 426)] {
        assert_eq!(answer(Query { m, ..strip }), (0, area));
    }
    let near = |given: &&Described| given.description.starts_with("near ");
    assert!(queries::all().iter().filter(near).count() >= 60);
}

/// Steps are where they are said to be.
#[test]
fn steps_are_by_one() {
    let all = queries::all();
    let steps = all
        .iter()
        .filter(|given| given.description.starts_with("step "));
    let steps: Vec<(u128, u128)> = steps.map(|given| answer(given.query)).collect();
    assert!(steps.len() >= 400);
    for pair in steps.chunks(2) {
        let (refused, area) = pair[0];
        assert_eq!(refused, 0);
        assert!(pair[1] == (0, area + 1) || pair[1] == (12, 0), "{pair:?}");
    }
}
