//! A library that answers wrongly, and what is said of its first difference.

use differ::job::{Calls, Job};
use differ::work::{parts, Amount};

pub fn noticed(amount: Amount, part: &str, calls: Calls) -> String {
    let job = Job {
        calls,
        ..Job::of_the_library(1)
    };
    let mut parts = parts(amount).into_iter();
    let part = parts.find(|one| one.name == part).unwrap();
    let compared = part.compare(&job, 0..part.cases, 1);
    compared.expect_err("a difference").to_string()
}
