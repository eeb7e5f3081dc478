//! Steel queries, each answered by brute force too.

use crate::case::Case;
use crate::same::same_answer;
use crate::tally::{DefaultSort, Tally};
use cases::draw::Draw;
use cases::queries::drawn::{any, narrow, real, shallow, stray};
use cases::queries::steps::strip_and_area;
use cases::queries::strength::greatest_moment;
use reference::schedule::least_area;
use reference::steel::{answer, Query};

/// Queries in a case.
pub const QUERIES: u64 = 500;

pub fn case(case: &mut Case) -> Result<(), String> {
    for _ in 0..QUERIES {
        let query = drawn(&mut case.draw);
        compare(case, query)?;
    }
    Ok(())
}

pub fn compare(case: &mut Case, query: Query) -> Result<(), String> {
    let right = answer(query);
    same_answer((case.job.calls.steel)(as_lent(query)), right)
        .map_err(|words| format!("{query:?}: {words}"))?;
    case.tally.steel.add(right.0);
    if query.d == 0 && right.0 != 11 {
        count_default(case.tally, query, right.1);
    }
    Ok(())
}

/// So much less than t: what 0 stood for in 01, and a mm to either side of what it stands for in 02, Six.
pub const OTHER_DEFAULTS: [u128; 3] = [26, 37, 39];

/// Of a query in range: its area is 0 where there is none.
fn count_default(tally: &mut Tally, query: Query, area: u128) {
    tally.defaults.add(DefaultSort::Asked);
    for less in OTHER_DEFAULTS {
        let d = query.t - less;
        if least_area(Query { d, ..query }).unwrap_or(0) != area {
            tally.defaults.add(DefaultSort::ToldFrom(less));
        }
    }
}

fn drawn(draw: &mut Draw) -> Query {
    match draw.between(1, 100) {
        1..=40 => real(draw),
        41..=50 => any(draw),
        51..=68 => narrow(draw),
        69..=80 => shallow(draw),
        81..=88 => stray(draw),
        _ => at_a_step(draw),
    }
}

/// The greatest moment that some area carries, or 1 more.
fn at_a_step(draw: &mut Draw) -> Query {
    let (strip, area) = strip_and_area(draw);
    let m = greatest_moment(strip, area) + draw.between(0, 1);
    Query { m, ..strip }
}

fn as_lent(query: Query) -> gandhrumil::Query {
    let in_64_bits = |number| u64::try_from(number).expect("64 bits");
    let [m, b, t, d, fc, fy] = query.numbers().map(in_64_bits);
    gandhrumil::Query { m, b, t, d, fc, fy }
}
