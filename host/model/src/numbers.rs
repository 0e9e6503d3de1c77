//! "Numbers and capacities" and "Numbers returned".

/// 2^63-2, the last number a written sample can have.
pub const LAST_SAMPLE: i64 = i64::MAX - 1;

pub const MOST_READERS: usize = 64;
pub const MOST_UNSENT: usize = 1024;
pub const MOST_GAPS: usize = 256;
pub const MOST_FRAGMENTED: usize = 16;
pub const MOST_FRAGMENTS: u32 = 4096;
pub const MOST_SLOTS: u64 = 256;
pub const MOST_SLOT_BYTES: u64 = 8192;
/// Of window and backlog: 2^31-1.
pub const MOST_LIMIT: u64 = (1 << 31) - 1;
pub const MOST_BITS: u32 = 256;

pub fn is_sample(number: i64) -> bool {
    (1..=LAST_SAMPLE).contains(&number)
}

pub fn is_last(number: i64) -> bool {
    (0..=LAST_SAMPLE).contains(&number)
}

#[derive(Clone, Copy, PartialEq, Eq, Debug)]
pub enum Refusal {
    Incoherent = 1,
    OutOfRange = 2,
    SetTooLong = 3,
    PayloadTooLong = 4,
    NumbersUsedUp = 5,
    WouldBlock = 6,
    StoreFull = 7,
    ListFull = 8,
    GapsFull = 9,
    FragmentsFull = 10,
    BadReader = 11,
    BaseAboveLast = 12,
    LimitNotAllowed = 13,
    NothingThere = 14,
    NotUnderstood = 15,
}

impl Refusal {
    pub fn number(self) -> u8 {
        self as u8
    }
}

pub type Answer<T> = Result<T, Refusal>;

/// The number of document 01's table: 0 is "done".
pub fn answer_number<T>(answer: &Answer<T>) -> u8 {
    match answer {
        Ok(_) => 0,
        Err(refusal) => refusal.number(),
    }
}

/// "Order where several apply": first to last.
pub const ORDER: [Refusal; 14] = [
    Refusal::LimitNotAllowed,
    Refusal::Incoherent,
    Refusal::SetTooLong,
    Refusal::OutOfRange,
    Refusal::BadReader,
    Refusal::BaseAboveLast,
    Refusal::PayloadTooLong,
    Refusal::NumbersUsedUp,
    Refusal::WouldBlock,
    Refusal::StoreFull,
    Refusal::ListFull,
    Refusal::GapsFull,
    Refusal::FragmentsFull,
    Refusal::NothingThere,
];

/// The refusal that comes first in document 01's order among the rows that
/// hold. The rows may stand in any order, so no call can get the order wrong.
pub fn first_of(rows: &[(bool, Refusal)]) -> Answer<()> {
    for refusal in ORDER {
        if rows.iter().any(|(holds, row)| *holds && *row == refusal) {
            return Err(refusal);
        }
    }
    Ok(())
}
