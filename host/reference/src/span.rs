//! "sixteen 32-bit numbers per span"

use crate::frame::{Frame, OuterEnd};
use crate::moments::{
    clear_length, end_span, section_total, static_moment, INNER_SPAN_BETWEEN, INNER_SPAN_ENDS,
};
use crate::stiffness::{frame_width, torsion};
use crate::strips::{
    beam_ratio, column_strip, column_strip_spread_evenly, column_strip_width, l2, part_between,
    part_inner_negative, part_outer_negative, section, span_ratio, torsion_ratio, Section,
};

/// "Mo, then low end, between, high end, each as total, column, middle, beam, slab"
pub const NUMBERS: usize = 16;

/// One span of a frame of a clear floor, which has three spans or more.
pub struct Span<'a> {
    frame: &'a Frame,
    number: usize,
    l1: u128,
}

impl Span<'_> {
    pub fn of(frame: &Frame, number: usize) -> Span<'_> {
        let l1 = frame.spans[number];
        Span { frame, number, l1 }
    }

    fn is_first(&self) -> bool {
        self.number == 0
    }

    fn is_last(&self) -> bool {
        self.number + 1 == self.frame.spans.len()
    }

    pub fn static_moment(&self) -> u128 {
        let slab = self.frame.slab;
        let width = frame_width(self.frame.adjoining);
        let clear_length = clear_length(self.l1, self.frame.column);
        static_moment(slab.dead, slab.live, width, clear_length)
    }

    /// The percentages of low end, between and high end.
    fn percentages(&self) -> [u128; 3] {
        let Frame { slab, .. } = self.frame;
        if self.is_first() {
            let row = end_span(self.frame.low_end.side, slab.layout);
            [row.outer_end, row.between, row.inner_end]
        } else if self.is_last() {
            let row = end_span(self.frame.high_end.side, slab.layout);
            [row.inner_end, row.between, row.outer_end]
        } else {
            [INNER_SPAN_ENDS, INNER_SPAN_BETWEEN, INNER_SPAN_ENDS]
        }
    }

    fn a(&self) -> u128 {
        beam_ratio(self.frame.alpha, l2(self.frame.adjoining), self.l1)
    }

    fn r(&self) -> u128 {
        span_ratio(l2(self.frame.adjoining), self.l1)
    }

    /// "with T of the outer beam across that end, 0 without one"; l2 is the frame's own.
    fn b(&self, end: OuterEnd) -> u128 {
        let t = self.frame.slab.t;
        let beam = end.line_across;
        let torsion = beam.has_beam().then(|| torsion(beam, t));
        torsion_ratio(torsion, l2(self.frame.adjoining), t)
    }

    fn between(&self, total: u128) -> Section {
        let column = column_strip(total, part_between(self.a(), self.r()));
        section(total, column, self.a())
    }

    fn inner_negative(&self, total: u128) -> Section {
        let column = column_strip(total, part_inner_negative(self.a(), self.r()));
        section(total, column, self.a())
    }

    fn outer_negative(&self, total: u128, end: OuterEnd) -> Section {
        let column = if end.side == 2 {
            // "On a fully restrained side the outer negative spreads evenly instead"
            let width = column_strip_width(self.l1, self.frame.adjoining);
            column_strip_spread_evenly(total, width, frame_width(self.frame.adjoining))
        } else {
            let part = part_outer_negative(self.a(), self.r(), self.b(end));
            column_strip(total, part)
        };
        section(total, column, self.a())
    }

    /// "low end, between, high end"
    pub fn sections(&self) -> [Section; 3] {
        let mo = self.static_moment();
        let [low, between, high] = self.percentages().map(|percent| section_total(percent, mo));
        let low_end = match self.is_first() {
            true => self.outer_negative(low, self.frame.low_end),
            false => self.inner_negative(low),
        };
        let high_end = match self.is_last() {
            true => self.outer_negative(high, self.frame.high_end),
            false => self.inner_negative(high),
        };
        [low_end, self.between(between), high_end]
    }

    /// "Mo, then low end, between, high end, each as total, column, middle, beam, slab."
    pub fn numbers(&self) -> [u32; NUMBERS] {
        let mut numbers = vec![self.static_moment()];
        for section in self.sections() {
            let Section {
                total,
                column,
                middle,
                beam,
                slab,
            } = section;
            numbers.extend([total, column, middle, beam, slab]);
        }
        let in_32_bits = |number| u32::try_from(number).expect("75·Mo is below 2³²");
        let numbers: Vec<u32> = numbers.into_iter().map(in_32_bits).collect();
        numbers.try_into().expect("1 + 3·5 numbers")
    }
}
