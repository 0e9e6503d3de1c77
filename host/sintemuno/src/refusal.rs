//! Document 01's numbers, as an error.

use std::{error::Error, fmt};

use crate::ffi::Answer;

/// Why a call wasn't done: the number of document 01's table. Whatever it is,
/// nothing was changed. Where several apply, it is the first of 13, 1, 3, 2, 11,
/// 12, 4, 5, 6, 7, 8, 9, 10, 14.
#[derive(Clone, Copy, Debug, PartialEq, Eq, Hash)]
pub enum Refusal {
    /// A record or buffer isn't coherent. The types of this crate keep theirs
    /// coherent, so their calls don't give it.
    Incoherent = 1,
    /// A number is out of its range.
    OutOfRange = 2,
    /// A set has more than 256 bits.
    TooManyBits = 3,
    /// The payload is longer than a slot.
    PayloadTooLong = 4,
    /// The sequence numbers are used up: last is 2^63-2.
    NumbersUsedUp = 5,
    /// The write would block.
    WouldBlock = 6,
    /// The store is full.
    StoreFull = 7,
    /// The reader list is full.
    ReadersFull = 8,
    /// The gap set is full.
    GapsFull = 9,
    /// The fragment slots are full.
    FragmentsFull = 10,
    /// The reader's id is 0, unknown, or already there.
    Reader = 11,
    /// The acknowledgement's base is above last + 1: it is ignored.
    Ahead = 12,
    /// A capacity or limit isn't allowed.
    LimitNotAllowed = 13,
    /// There is nothing: no such sample, unsent number or fragment.
    NothingThere = 14,
}

/// What a call gives: its value, or why it wasn't done.
pub type Result<T> = std::result::Result<T, Refusal>;

impl Refusal {
    /// The number of document 01's table.
    pub fn number(self) -> u32 {
        self as u32
    }
}

impl fmt::Display for Refusal {
    fn fmt(&self, f: &mut fmt::Formatter<'_>) -> fmt::Result {
        let meaning = match self {
            Refusal::Incoherent => "a record or buffer isn't coherent",
            Refusal::OutOfRange => "a number is out of its range",
            Refusal::TooManyBits => "a set has more than 256 bits",
            Refusal::PayloadTooLong => "payload longer than a slot",
            Refusal::NumbersUsedUp => "sequence numbers used up",
            Refusal::WouldBlock => "would block",
            Refusal::StoreFull => "store full",
            Refusal::ReadersFull => "reader list full",
            Refusal::GapsFull => "gap set full",
            Refusal::FragmentsFull => "fragment slots full",
            Refusal::Reader => "reader id 0, unknown, or already there",
            Refusal::Ahead => "acknowledgement base above last+1: ignored",
            Refusal::LimitNotAllowed => "capacity or limit not allowed",
            Refusal::NothingThere => "nothing there",
        };
        write!(f, "{} ({})", meaning, self.number())
    }
}

impl Error for Refusal {}

/// The value, where the answer is 0.
pub(crate) fn given<T>(answer: Answer, value: T) -> Result<T> {
    Err(match answer.number {
        0 => return Ok(value),
        2 => Refusal::OutOfRange,
        3 => Refusal::TooManyBits,
        4 => Refusal::PayloadTooLong,
        5 => Refusal::NumbersUsedUp,
        6 => Refusal::WouldBlock,
        7 => Refusal::StoreFull,
        8 => Refusal::ReadersFull,
        9 => Refusal::GapsFull,
        10 => Refusal::FragmentsFull,
        11 => Refusal::Reader,
        12 => Refusal::Ahead,
        13 => Refusal::LimitNotAllowed,
        14 => Refusal::NothingThere,
        // 1; the library has no other number.
        _ => Refusal::Incoherent,
    })
}
