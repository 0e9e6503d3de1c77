//! The matched readers side by side.

use crate::{
    ffi::{self, Acked, Match, ReaderHead, SequenceNumber},
    refusal::{given, Refusal, Result},
};

/// The readers that are matched: their ids, whether they are reliable, and what
/// each has acknowledged. It owns its slots, made by `new`; no call allocates.
#[derive(Clone, PartialEq, Eq, Debug)]
pub struct ReaderList {
    pub(crate) slots: Box<[ReaderHead]>,
}

impl ReaderList {
    /// The most slots that a list can have.
    pub const MOST: usize = 64;

    /// An empty list with room for so many readers, 1 to 64.
    pub fn new(slots: usize) -> Result<Self> {
        if !(1..=Self::MOST).contains(&slots) {
            return Err(Refusal::LimitNotAllowed);
        }
        let slots = vec![ReaderHead::default(); slots].into_boxed_slice();
        Ok(ReaderList { slots })
    }

    /// A match: a reader joins, with nothing acknowledged. `cap` is that of its
    /// unsent numbers.
    pub fn matched_reader_add(&mut self, id: u64, reliable: bool, cap: usize) -> Result<()> {
        let cap = cap as u64;
        let joins = Match { id, reliable, cap };
        given(ffi::list_matched_reader_add(&mut self.slots, joins), ())
    }

    /// A departure.
    pub fn matched_reader_remove(&mut self, id: u64) -> Result<()> {
        given(ffi::list_matched_reader_remove(&mut self.slots, id), ())
    }

    /// The reader's slot and its head.
    pub fn matched_reader_lookup(&self, id: u64) -> Result<(usize, ReaderHead)> {
        let found = ffi::list_matched_reader_lookup(&self.slots, id);
        given(found.answer, (found.place, found.head))
    }

    /// The reader has acknowledged all below this number.
    pub fn set_acked(&mut self, id: u64, acked: SequenceNumber) -> Result<()> {
        given(
            ffi::list_set_acked(&mut self.slots, Acked { id, acked }),
            (),
        )
    }

    /// The smallest acknowledged number over the reliable readers, at least 1;
    /// `None` where there is no reliable reader.
    pub fn frontier(&self) -> Option<SequenceNumber> {
        let front = ffi::list_frontier(&self.slots).frontier;
        if front.present {
            Some(front.acked)
        } else {
            None
        }
    }

    /// The slots; a free one has id 0.
    pub fn slots(&self) -> &[ReaderHead] {
        &self.slots
    }
}
