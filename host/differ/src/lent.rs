//! Buffers as they are lent to the library: at any address, between guards.

use cases::draw::Draw;
use std::fmt::Debug;
use std::hint::black_box;
use std::ops::Range;

/// What lies around a lent buffer.
#[derive(Clone, Copy, Debug, PartialEq, Eq)]
pub enum Room {
    /// Guards on both sides.
    Guarded,
    /// Nothing after it, and mostly nothing before it, so that valgrind sees what goes past an end.
    Exact,
}

impl Room {
    /// How many numbers lie before the buffer and after it.
    fn margins(self, draw: &mut Draw) -> (usize, usize) {
        // More than a record of the table, and than a record of the floor, on either side.
        let mut guard = || draw.between(17, 48);
        match self {
            Room::Guarded => (guard(), guard()),
            Room::Exact if guard() % 2 == 0 => (0, 0),
            Room::Exact => (guard() % 16, 0),
        }
    }
}

/// What buffers are made of: bytes, or the numbers of a table or a slice.
pub trait Number: Copy + Debug + PartialEq {
    fn any(draw: &mut Draw) -> Self;
}

impl Number for u8 {
    fn any(draw: &mut Draw) -> u8 {
        draw.bits() as u8
    }
}

impl Number for u32 {
    fn any(draw: &mut Draw) -> u32 {
        draw.number()
    }
}

pub struct Lent<T> {
    memory: Box<[T]>,
    lent: Range<usize>,
    /// What was put before the buffer and after it.
    guards: (Vec<T>, Vec<T>),
}

impl<T: Number> Lent<T> {
    pub fn new(draw: &mut Draw, room: Room, contents: &[T]) -> Lent<T> {
        let (before, after) = room.margins(draw);
        let mut guard = |length| (0..length).map(|_| T::any(draw)).collect::<Vec<T>>();
        let guards = (guard(before), guard(after));
        Lent {
            memory: [&guards.0, contents, &guards.1].concat().into_boxed_slice(),
            lent: before..before + contents.len(),
            guards,
        }
    }

    pub fn numbers(&self) -> &[T] {
        &self.memory[self.lent.clone()]
    }

    pub fn numbers_mut(&mut self) -> &mut [T] {
        &mut self.memory[self.lent.clone()]
    }

    /// Where the buffer starts, from one address that 16 divides to the next.
    pub fn address(&self) -> usize {
        self.numbers().as_ptr() as usize % 16
    }

    /// Whether the buffer is what it has to be, and the guards what they were.
    pub fn holds(&self, name: &str, expected: &[T]) -> Result<(), String> {
        // Foreign code has had the memory: nothing may be taken as known of it.
        let memory = black_box(&self.memory);
        let (before, rest) = memory.split_at(self.lent.start);
        let (numbers, after) = rest.split_at(self.lent.len());
        same(&format!("{name}, before its start"), before, &self.guards.0)?;
        same(&format!("{name}, after its end"), after, &self.guards.1)?;
        same(name, numbers, expected)
    }
}

fn same<T: Number>(name: &str, left: &[T], right: &[T]) -> Result<(), String> {
    assert_eq!(left.len(), right.len());
    if left == right {
        return Ok(());
    }
    let place = left.iter().zip(right).position(|(one, other)| one != other);
    let place = place.expect("two that differ");
    Err(format!(
        "{name}: at {place} the library leaves {:?}, right is {:?}",
        left[place], right[place]
    ))
}

#[cfg(test)]
mod tests {
    use super::*;

    #[test]
    fn every_number_is_looked_at() {
        let mut draw = Draw::starting_at(1);
        let contents = [7, 8, 9];
        let mut lent: Lent<u32> = Lent::new(&mut draw, Room::Guarded, &contents);
        for place in 0..lent.memory.len() {
            assert_eq!(lent.holds("table", &contents), Ok(()));
            lent.memory[place] ^= 1;
            assert!(lent.holds("table", &contents).is_err(), "{place}");
            lent.memory[place] ^= 1;
        }
        lent.memory[lent.lent.end] ^= 1;
        let words = lent.holds("table", &contents).unwrap_err();
        assert!(words.starts_with("table, after its end: at 0 "), "{words}");
    }

    #[test]
    fn an_exact_buffer_ends_with_its_memory() {
        let mut draw = Draw::starting_at(2);
        for length in 0..100 {
            let lent = Lent::new(&mut draw, Room::Exact, &vec![1_u8; length]);
            assert_eq!(lent.lent.end, lent.memory.len());
        }
    }

    fn counts_of_addresses<T: Number>(room: Room, contents: &[T]) -> [u32; 16] {
        let mut draw = Draw::starting_at(3);
        let mut counts = [0; 16];
        for _ in 0..1_000 {
            counts[Lent::new(&mut draw, room, contents).address()] += 1;
        }
        counts
    }

    /// Bytes at all sixteen addresses, numbers at all four that they may have.
    #[test]
    fn every_address_comes_up() {
        for room in [Room::Guarded, Room::Exact] {
            let bytes = counts_of_addresses(room, &[0_u8; 16]);
            assert!(bytes.iter().all(|&count| count >= 10), "{bytes:?}");
            let numbers = counts_of_addresses(room, &[0_u32; 16]);
            let fourths = numbers.iter().step_by(4);
            assert!(fourths.clone().all(|&count| count >= 10), "{numbers:?}");
            assert_eq!(fourths.sum::<u32>(), 1_000);
        }
    }
}
