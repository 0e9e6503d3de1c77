//! The samples that a writer keeps, and whether one more may be written.

use std::fmt;

use crate::{
    ffi::{self, AckedFrontier, Kind, Limits, SequenceNumber, WriterSendBuffer as Flow},
    refusal::{given, Result},
};

/// A writer's flow record with its store.
///
/// It owns the store, made by `new`; no call allocates. There is no waiting
/// here: a call answers [`WouldBlock`](crate::Refusal::WouldBlock), and others
/// say when who waits is to be woken.
#[derive(Clone, PartialEq, Eq)]
pub struct WriterSendBuffer {
    pub(crate) flow: Flow,
    pub(crate) store: Box<[u8]>,
    pub(crate) lens: Box<[u64]>,
}

impl WriterSendBuffer {
    /// A new writer that has written nothing.
    pub fn new(kind: Kind, limits: Limits) -> Result<Self> {
        let made = ffi::writer_new(kind, limits);
        let flow = given(made.answer, made.flow)?;
        // Allowed limits: at most 256 slots of 8,192 bytes.
        let (slots, bytes) = (limits.slots as usize, limits.slot_bytes as usize);
        Ok(WriterSendBuffer {
            flow,
            store: vec![0; slots * bytes].into_boxed_slice(),
            lens: vec![0; slots].into_boxed_slice(),
        })
    }

    /// Whether one more sample finds room; `opted_in`: the write opted in to
    /// block.
    pub fn has_room(&self, opted_in: bool) -> bool {
        ffi::writer_has_room(self.flow, opted_in).yes
    }

    /// A write: the payload is copied into its slot, and its number returned.
    ///
    /// ```
    /// # use sintemuno::{Kind, Limits, Refusal, SequenceNumber, WriterSendBuffer};
    /// let kind = Kind { reliable: true, builtin: false, volatile: true };
    /// let limits = Limits { window: 1, backlog: 8, retain: 4, slots: 4, slot_bytes: 16 };
    /// let mut plan = WriterSendBuffer::new(kind, limits)?;
    /// plan.set_acked_frontier(Some(SequenceNumber(1)))?; // a reliable reader is there
    /// assert_eq!(plan.try_admit(false, b"rye, label 7"), Ok(SequenceNumber(1)));
    /// assert_eq!(plan.get_by_sn(SequenceNumber(1)), Some(&b"rye, label 7"[..]));
    /// assert_eq!(plan.try_admit(false, b"stop: sesame"), Err(Refusal::WouldBlock));
    /// # Ok::<(), Refusal>(())
    /// ```
    pub fn try_admit(&mut self, opted_in: bool, payload: &[u8]) -> Result<SequenceNumber> {
        let (store, lens) = (&mut self.store, &mut self.lens);
        let admitted = ffi::writer_admit(&mut self.flow, store, lens, payload, opted_in);
        given(admitted.answer, admitted.number)
    }

    /// The bytes of a retained sample.
    pub fn get_by_sn(&self, number: SequenceNumber) -> Option<&[u8]> {
        let at = ffi::writer_locate(self.flow, self.store.len(), &self.lens, number);
        let (start, length) = given(at.answer, (at.start, at.length)).ok()?;
        self.store.get(start..start + length)
    }

    /// The acknowledgement frontier is stored: the smallest acknowledged number
    /// over the reliable readers, or `None` where there is none. Returns whether
    /// to wake who waits for room.
    pub fn set_acked_frontier(&mut self, acked_before: Option<SequenceNumber>) -> Result<bool> {
        let frontier = AckedFrontier {
            present: acked_before.is_some(),
            acked: acked_before.unwrap_or_default(),
        };
        let told = ffi::writer_set_acked_frontier(&mut self.flow, frontier);
        given(told.answer, told.yes)
    }

    /// The highest number that has gone out. Returns whether to wake who waits
    /// for room.
    pub fn set_sent_frontier(&mut self, sent_frontier: SequenceNumber) -> Result<bool> {
        let told = ffi::writer_set_sent_frontier(&mut self.flow, sent_frontier);
        given(told.answer, told.yes)
    }

    /// What is retained below the number goes.
    pub fn remove_changes_before(&mut self, remove_before: SequenceNumber) -> Result<()> {
        let answer = ffi::writer_remove_changes_before(&mut self.flow, remove_before);
        given(answer, ())
    }

    /// Whether every reliable reader has all through the number.
    pub fn is_acked_through(&self, target: SequenceNumber) -> bool {
        ffi::writer_is_acked_through(self.flow, target).yes
    }

    /// The oldest number retained; last + 1 where none is.
    pub fn first_change_sequence_number(&self) -> SequenceNumber {
        ffi::writer_first_change_sequence_number(self.flow).number
    }

    /// The newest number written; 0 where none is.
    pub fn last_change_sequence_number(&self) -> SequenceNumber {
        ffi::writer_last_change_sequence_number(self.flow).number
    }
}

impl fmt::Debug for WriterSendBuffer {
    fn fmt(&self, f: &mut fmt::Formatter<'_>) -> fmt::Result {
        self.flow.fmt(f)
    }
}
