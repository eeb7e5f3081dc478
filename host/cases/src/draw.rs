//! Numbers drawn from a fixed sequence: the same floors and the same changes each time.

use std::fmt::Debug;

/// Any type of whole numbers.
pub trait Whole: TryInto<u128, Error: Debug> + TryFrom<u128, Error: Debug> {}

impl<N: TryInto<u128, Error: Debug> + TryFrom<u128, Error: Debug>> Whole for N {}

/// The generator splitmix64.
#[derive(Clone, Debug)]
pub struct Draw(u64);

impl Draw {
    pub fn starting_at(seed: u64) -> Draw {
        Draw(seed)
    }

    pub fn bits(&mut self) -> u64 {
        self.0 = self.0.wrapping_add(0x9e37_79b9_7f4a_7c15);
        let mut mixed = self.0;
        mixed = (mixed ^ (mixed >> 30)).wrapping_mul(0xbf58_476d_1ce4_e5b9);
        mixed = (mixed ^ (mixed >> 27)).wrapping_mul(0x94d0_49bb_1331_11eb);
        mixed ^ (mixed >> 31)
    }

    /// Both ends included.
    pub fn between<N: Whole>(&mut self, low: N, high: N) -> N {
        let wide = |number: N| number.try_into().expect("a number that is not below 0");
        let (low, high): (u128, u128) = (wide(low), wide(high));
        assert!(low <= high, "{low} to {high}");
        let drawn = low + u128::from(self.bits()) % (high - low + 1);
        drawn.try_into().expect("no more than the highest")
    }

    pub fn one_of<T: Copy>(&mut self, choices: &[T]) -> T {
        choices[self.between(0, choices.len() - 1)]
    }

    /// True so many times of a hundred.
    pub fn percent(&mut self, percent: u32) -> bool {
        self.between(1, 100) <= percent
    }

    /// Any 32-bit number.
    pub fn number(&mut self) -> u32 {
        (self.bits() >> 32) as u32
    }
}
