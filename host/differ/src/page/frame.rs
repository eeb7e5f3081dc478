//! A call as bytes to node, and its answer as bytes from there; little-endian. `web/test/frames.js` is the other end.

use crate::same::hex;
use gandhrumil::Answer;
use std::fmt;

#[derive(Clone, Copy, Debug, PartialEq, Eq)]
pub enum Call {
    Open = 1,
    Change = 2,
    Panel = 3,
    Clear = 4,
    Places = 5,
    Steel = 6,
    Schedule = 7,
}

/// What a call is given; what it has no use for is empty or 0.
pub struct Asked<'a> {
    pub call: Call,
    /// Table and governing slice, or the slice for places.
    pub slices: [&'a [u32]; 2],
    pub floor: &'a [u8],
    /// The change, or the buffer for the schedule.
    pub bytes: &'a [u8],
    /// The panel's bays, or the steel query.
    pub numbers: [u64; 6],
}

impl Asked<'_> {
    pub fn new(call: Call) -> Asked<'static> {
        Asked {
            call,
            slices: [&[]; 2],
            floor: &[],
            bytes: &[],
            numbers: [0; 6],
        }
    }

    /// Which frame it is, the call, the four lengths, the plain numbers, then what is lent: numbers first, so that
    /// they stay aligned.
    pub fn write(&self, number: u32, frame: &mut Vec<u8>) {
        let [first, second] = self.slices;
        let lengths = [
            first.len(),
            second.len(),
            self.floor.len(),
            self.bytes.len(),
        ];
        frame.clear();
        put(frame, &[number, self.call as u32]);
        put(frame, &lengths.map(|length| length as u32));
        for number in self.numbers {
            frame.extend_from_slice(&number.to_le_bytes());
        }
        put(frame, first);
        put(frame, second);
        frame.extend_from_slice(self.floor);
        frame.extend_from_slice(self.bytes);
    }

    pub fn lent_bytes(&self) -> usize {
        let [first, second] = self.slices;
        size_of_val(first) + size_of_val(second) + self.floor.len() + self.bytes.len()
    }
}

/// Enough to make the call again, but for what was in the slices.
impl fmt::Display for Asked<'_> {
    fn fmt(&self, f: &mut fmt::Formatter) -> fmt::Result {
        let Asked { call, numbers, .. } = self;
        let [first, second] = self.slices.map(<[u32]>::len);
        let (floor, bytes) = (hex(self.floor), hex(self.bytes));
        write!(f, "{call:?} on slices of {first} and {second}, numbers {numbers:?}, bytes {bytes}, floor\n{floor}")
    }
}

fn put(frame: &mut Vec<u8>, numbers: &[u32]) {
    let start = frame.len();
    frame.resize(start + size_of_val(numbers), 0);
    let (words, _) = frame[start..].as_chunks_mut();
    for (word, number) in words.iter_mut().zip(numbers) {
        *word = number.to_le_bytes();
    }
}

/// Which frame it answers, how many bytes of what was lent follow, refusal, value.
pub const HEAD_BYTES: usize = 16;

pub fn head(bytes: [u8; HEAD_BYTES]) -> [u32; 4] {
    let (words, _) = bytes.as_chunks();
    std::array::from_fn(|which| u32::from_le_bytes(words[which]))
}

/// An answer, and what was lent as it is after the call, to be taken in the order of the frame.
pub struct Given<'a> {
    pub answer: Answer,
    pub lent: &'a [u8],
}

impl Given<'_> {
    fn next(&mut self, length: usize) -> &[u8] {
        let (next, rest) = self.lent.split_at(length);
        self.lent = rest;
        next
    }

    pub fn numbers(&mut self, numbers: &mut [u32]) {
        let (words, _) = self.next(size_of_val(numbers)).as_chunks();
        for (number, &word) in numbers.iter_mut().zip(words) {
            *number = u32::from_le_bytes(word);
        }
    }

    pub fn bytes(&mut self, bytes: &mut [u8]) {
        bytes.copy_from_slice(self.next(bytes.len()));
    }

    /// What is lent to be read alone comes back as it was.
    pub fn unwritten(&mut self, bytes: &[u8]) {
        let after = self.next(bytes.len());
        assert!(
            after == bytes,
            "the page's library writes to what it may only read: {}\nis then\n{}",
            hex(bytes),
            hex(after)
        );
    }
}
