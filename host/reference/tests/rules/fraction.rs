//! Exact fractions, to work out by the formulas of ACI 318-14 what 01 says in whole numbers.

use std::cmp::Ordering;
use std::ops::{Add, Div, Mul, Sub};

/// The denominator is above 0.
#[derive(Clone, Copy, Debug, PartialEq, Eq)]
pub struct Fraction {
    numerator: i128,
    denominator: i128,
}

fn greatest_common_divisor(one: i128, other: i128) -> i128 {
    match other {
        0 => one,
        _ => greatest_common_divisor(other, one % other),
    }
}

pub fn fraction(numerator: i128, denominator: i128) -> Fraction {
    assert_ne!(denominator, 0);
    let common = greatest_common_divisor(numerator, denominator).abs() * denominator.signum();
    Fraction {
        numerator: numerator / common,
        denominator: denominator / common,
    }
}

pub fn whole(number: i128) -> Fraction {
    fraction(number, 1)
}

impl Fraction {
    /// The greatest whole number that is not above.
    pub fn floor(self) -> i128 {
        let toward_zero = self.numerator / self.denominator;
        if whole(toward_zero) > self {
            toward_zero - 1
        } else {
            toward_zero
        }
    }
}

impl Add for Fraction {
    type Output = Fraction;
    fn add(self, other: Fraction) -> Fraction {
        fraction(
            self.numerator * other.denominator + other.numerator * self.denominator,
            self.denominator * other.denominator,
        )
    }
}

impl Sub for Fraction {
    type Output = Fraction;
    fn sub(self, other: Fraction) -> Fraction {
        self + whole(-1) * other
    }
}

impl Mul for Fraction {
    type Output = Fraction;
    fn mul(self, other: Fraction) -> Fraction {
        fraction(
            self.numerator * other.numerator,
            self.denominator * other.denominator,
        )
    }
}

impl Div for Fraction {
    type Output = Fraction;
    fn div(self, other: Fraction) -> Fraction {
        fraction(
            self.numerator * other.denominator,
            self.denominator * other.numerator,
        )
    }
}

impl PartialOrd for Fraction {
    fn partial_cmp(&self, other: &Fraction) -> Option<Ordering> {
        (self.numerator * other.denominator).partial_cmp(&(other.numerator * self.denominator))
    }
}

#[test]
fn fractions() {
    assert_eq!(fraction(4, -6), fraction(-2, 3));
    assert_eq!(fraction(1, 2) + fraction(1, 3), fraction(5, 6));
    assert_eq!(fraction(1, 2) - fraction(2, 3), fraction(-1, 6));
    assert_eq!(fraction(2, 3) * fraction(-3, 4), fraction(-1, 2));
    assert_eq!(fraction(2, 3) / fraction(-4, 3), fraction(-1, 2));
    assert!(fraction(-1, 2) < fraction(-1, 3));
    for (number, floor) in [
        (fraction(7, 2), 3),
        (whole(3), 3),
        (fraction(1, 3), 0),
        (whole(0), 0),
        (fraction(-1, 3), -1),
        (whole(-3), -3),
        (fraction(-7, 2), -4),
    ] {
        assert_eq!(number.floor(), floor, "{number:?}");
    }
}
