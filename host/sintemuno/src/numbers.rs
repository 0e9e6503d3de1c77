//! Sequence and fragment numbers, and sets of them.

use std::{fmt, iter};

use crate::{
    ffi::{
        self, Cursor, FragmentCursor, FragmentNumber, FragmentNumberSet, SequenceNumber,
        SequenceNumberSet,
    },
    refusal::{given, Result},
};

impl SequenceNumber {
    /// The last number that a written sample can have: 2^63-2.
    pub const LAST: SequenceNumber = SequenceNumber(i64::MAX - 1);

    /// Whether a written sample can have this number.
    pub fn is_sample(self) -> bool {
        (1..=SequenceNumber::LAST.0).contains(&self.0)
    }
}

impl FragmentNumber {
    /// The last number that a fragment can have.
    pub const LAST: FragmentNumber = FragmentNumber(4096);
}

impl From<i64> for SequenceNumber {
    fn from(number: i64) -> Self {
        SequenceNumber(number)
    }
}

impl From<SequenceNumber> for i64 {
    fn from(number: SequenceNumber) -> Self {
        number.0
    }
}

impl From<u32> for FragmentNumber {
    fn from(number: u32) -> Self {
        FragmentNumber(number)
    }
}

impl From<FragmentNumber> for u32 {
    fn from(number: FragmentNumber) -> Self {
        number.0
    }
}

impl fmt::Display for SequenceNumber {
    fn fmt(&self, f: &mut fmt::Formatter<'_>) -> fmt::Result {
        self.0.fmt(f)
    }
}

impl fmt::Display for FragmentNumber {
    fn fmt(&self, f: &mut fmt::Formatter<'_>) -> fmt::Result {
        self.0.fmt(f)
    }
}

impl SequenceNumberSet {
    /// The set of these numbers, in any order: none below the base, none above
    /// base + 255.
    ///
    /// ```
    /// # use sintemuno::{SequenceNumber, SequenceNumberSet};
    /// let set = SequenceNumberSet::new(SequenceNumber(10), &[10, 12])?;
    /// assert_eq!((set.count, set.words[0]), (3, 0xA000_0000));
    /// # Ok::<(), sintemuno::Refusal>(())
    /// ```
    pub fn new(base: SequenceNumber, numbers: &[u64]) -> Result<Self> {
        let written = ffi::set_of_numbers(base, numbers);
        given(written.answer, written.set)
    }

    /// The set with no number: "all below the base arrived, and I ask for
    /// nothing".
    pub fn empty(base: SequenceNumber) -> Self {
        SequenceNumberSet {
            base,
            ..Self::default()
        }
    }

    /// The members, rising; none of a set that has more than 256 bits or a
    /// negative base.
    pub fn iter(&self) -> impl Iterator<Item = SequenceNumber> + '_ {
        let mut at = Cursor::default();
        iter::from_fn(move || {
            let next = ffi::set_next_member(*self, at);
            at = next.cursor;
            given(next.answer, next.number).ok()
        })
        .fuse()
    }
}

impl FragmentNumberSet {
    /// The set of these numbers, in any order: none below the base, none above
    /// base + 255.
    pub fn new(base: FragmentNumber, numbers: &[u64]) -> Result<Self> {
        let written = ffi::fragment_set_of_numbers(base, numbers);
        given(written.answer, written.set)
    }

    /// The members, rising; none of a set that has more than 256 bits.
    pub fn iter(&self) -> impl Iterator<Item = FragmentNumber> + '_ {
        let mut at = FragmentCursor::default();
        iter::from_fn(move || {
            let next = ffi::fragment_set_next_member(*self, at);
            at = next.cursor;
            given(next.answer, next.number).ok()
        })
        .fuse()
    }
}
