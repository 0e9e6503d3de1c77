//! Stand-ins: sequence numbers as signed 64-bit, fragment numbers as unsigned
//! 32-bit, in their plain order. A sum that doesn't fit panics: inside the
//! compared range there is none.

#[derive(Clone, Copy, PartialEq, Eq, PartialOrd, Ord, Debug)]
pub struct SequenceNumber(i64);

impl SequenceNumber {
    pub fn new(value: i64) -> Self {
        SequenceNumber(value)
    }

    pub fn zero() -> Self {
        SequenceNumber(0)
    }

    pub fn plus_1(&self) -> Self {
        SequenceNumber(self.0.checked_add(1).expect("number past 2^63-1"))
    }
}

/// Only the empty fragment iterator uses it, and never shows it.
impl Default for SequenceNumber {
    fn default() -> Self {
        SequenceNumber(1)
    }
}

impl From<i64> for SequenceNumber {
    fn from(value: i64) -> Self {
        SequenceNumber(value)
    }
}

impl From<SequenceNumber> for i64 {
    fn from(number: SequenceNumber) -> i64 {
        number.0
    }
}

/// Both ends included; empty if the end is below the begin.
pub struct SequenceNumberRange {
    next: i64,
    end: i64,
}

impl SequenceNumberRange {
    pub fn new(begin: SequenceNumber, end: SequenceNumber) -> Self {
        SequenceNumberRange {
            next: begin.0,
            end: end.0,
        }
    }
}

impl Iterator for SequenceNumberRange {
    type Item = SequenceNumber;

    fn next(&mut self) -> Option<SequenceNumber> {
        if self.next > self.end {
            return None;
        }
        let number = SequenceNumber(self.next);
        self.next += 1;
        Some(number)
    }
}

#[derive(Clone, Copy, PartialEq, Eq, PartialOrd, Ord, Debug)]
pub struct FragmentNumber(u32);

impl FragmentNumber {
    pub fn new(value: u32) -> Self {
        FragmentNumber(value)
    }
}

impl From<FragmentNumber> for u32 {
    fn from(number: FragmentNumber) -> u32 {
        number.0
    }
}

impl From<FragmentNumber> for usize {
    fn from(number: FragmentNumber) -> usize {
        number.0 as usize
    }
}

pub use super::number_set::{FragmentNumberSet, SequenceNumberSet};
