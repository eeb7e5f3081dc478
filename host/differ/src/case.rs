//! What a case has at hand while it compares.

use crate::job::Job;
use crate::lent::{Lent, Number};
use crate::tally::Tally;
use cases::draw::Draw;

pub struct Case<'a> {
    pub job: &'a Job,
    pub draw: Draw,
    pub tally: &'a mut Tally,
}

impl Case<'_> {
    pub fn lend<T: Number>(&mut self, contents: &[T]) -> Lent<T> {
        Lent::new(&mut self.draw, self.job.room, contents)
    }
}
