//! The two products that are timed, behind the same seven calls.

/// Refusal and value.
pub type Answer = (u32, u32);

/// M, b, t, d, fc, fy.
pub type Query = [u64; 6];

pub trait Product {
    fn open(floor: &[u8], table: &mut [u32], governing: &mut [u32]) -> Answer;
    fn change(floor: &mut [u8], table: &mut [u32], governing: &mut [u32], change: &[u8]) -> Answer;
    fn panel(floor: &[u8], x: u64, y: u64) -> Answer;
    fn clear(floor: &[u8]) -> Answer;
    fn places(floor: &[u8], places: &mut [u32]) -> Answer;
    fn schedule(floor: &[u8], schedule: &mut [u8]) -> Answer;
    fn steel(query: Query) -> Answer;
}

macro_rules! product {
    ($name:ident, $library:ident) => {
        pub struct $name;

        impl Product for $name {
            fn open(floor: &[u8], table: &mut [u32], governing: &mut [u32]) -> Answer {
                let answer = $library::open(floor, table, governing);
                (answer.refusal, answer.value)
            }

            fn change(
                floor: &mut [u8],
                table: &mut [u32],
                governing: &mut [u32],
                change: &[u8],
            ) -> Answer {
                let answer = $library::change(floor, table, governing, change);
                (answer.refusal, answer.value)
            }

            fn panel(floor: &[u8], x: u64, y: u64) -> Answer {
                let answer = $library::panel(floor, x, y);
                (answer.refusal, answer.value)
            }

            fn clear(floor: &[u8]) -> Answer {
                let answer = $library::clear(floor);
                (answer.refusal, answer.value)
            }

            fn places(floor: &[u8], places: &mut [u32]) -> Answer {
                let answer = $library::places(floor, places);
                (answer.refusal, answer.value)
            }

            fn schedule(floor: &[u8], schedule: &mut [u8]) -> Answer {
                let answer = $library::schedule(floor, schedule);
                (answer.refusal, answer.value)
            }

            fn steel([m, b, t, d, fc, fy]: Query) -> Answer {
                let answer = $library::steel($library::Query { m, b, t, d, fc, fy });
                (answer.refusal, answer.value)
            }
        }
    };
}

product!(Ours, gandhrumil);
product!(Baseline, baseline);
