//! What the send step puts on the wire.

use std::ops::Range;

use crate::ffi::SequenceNumber;

/// What the send step puts on the wire.
#[derive(Clone, Copy, Debug, PartialEq, Eq)]
pub enum Sent<'a> {
    /// The sample's number and its bytes.
    Data(SequenceNumber, &'a [u8]),
    /// A number that is no longer retained, to be told as a gap.
    Gap(SequenceNumber),
}

/// Where the send step for many writes what it sent: the numbers, where the
/// bytes of each begin in the store, and how many they are.
#[derive(Clone, Debug)]
pub(crate) struct SentRoom {
    pub numbers: [u64; SentRoom::MOST],
    pub starts: [u64; SentRoom::MOST],
    pub lengths: [u64; SentRoom::MOST],
}

impl SentRoom {
    pub const MOST: usize = 256;

    pub fn new() -> Box<Self> {
        Box::new(SentRoom {
            numbers: [0; Self::MOST],
            starts: [0; Self::MOST],
            lengths: [0; Self::MOST],
        })
    }

    /// The first `count`, with the store that their bytes lie in.
    pub fn first<'a>(&'a self, count: usize, store: &'a [u8]) -> SentMany<'a> {
        SentMany {
            room: self,
            store,
            left: 0..count,
        }
    }

    fn get<'a>(&self, place: usize, store: &'a [u8]) -> Sent<'a> {
        let number = SequenceNumber(self.numbers[place] as i64);
        let (start, length) = (self.starts[place] as usize, self.lengths[place] as usize);
        // What goes as a gap starts past the end of every store.
        match store.get(start..start + length) {
            Some(bytes) => Sent::Data(number, bytes),
            None => Sent::Gap(number),
        }
    }
}

/// What the send step for many puts on the wire, rising.
#[derive(Clone, Debug)]
pub struct SentMany<'a> {
    room: &'a SentRoom,
    store: &'a [u8],
    left: Range<usize>,
}

impl<'a> Iterator for SentMany<'a> {
    type Item = Sent<'a>;

    fn next(&mut self) -> Option<Sent<'a>> {
        let place = self.left.next()?;
        Some(self.room.get(place, self.store))
    }

    fn size_hint(&self) -> (usize, Option<usize>) {
        self.left.size_hint()
    }
}

impl ExactSizeIterator for SentMany<'_> {}
