//! Stand-in: number sets as RTPS writes them. The standard decides what a set
//! contains, so the order of bits here is no evidence about the crate's.

use super::sequence_number::{FragmentNumber, SequenceNumber};

#[derive(Clone, Debug)]
struct Bits {
    count: u32,
    words: [u32; 8],
}

impl Bits {
    fn places(&self) -> impl Iterator<Item = u32> + '_ {
        (0..self.count).filter(|i| self.words[(i / 32) as usize] >> (31 - i % 32) & 1 == 1)
    }
}

#[derive(Clone, Debug)]
pub struct SequenceNumberSet {
    base: i64,
    bits: Bits,
}

impl SequenceNumberSet {
    pub fn new(base: i64, count: u32, words: [u32; 8]) -> Self {
        SequenceNumberSet {
            base,
            bits: Bits { count, words },
        }
    }

    pub fn base(&self) -> SequenceNumber {
        SequenceNumber::new(self.base)
    }

    pub fn iter(&self) -> impl Iterator<Item = SequenceNumber> + '_ {
        self.bits.places().map(move |i| {
            let number = self.base.checked_add(i.into());
            SequenceNumber::new(number.expect("member past 2^63-1"))
        })
    }
}

pub struct FragmentNumberSet {
    base: u32,
    bits: Bits,
}

impl FragmentNumberSet {
    pub fn new(base: u32, count: u32, words: [u32; 8]) -> Self {
        FragmentNumberSet {
            base,
            bits: Bits { count, words },
        }
    }

    pub fn iter(&self) -> impl Iterator<Item = FragmentNumber> + '_ {
        self.bits.places().map(move |i| {
            let number = self.base.checked_add(i);
            FragmentNumber::new(number.expect("fragment past 2^32-1"))
        })
    }
}
