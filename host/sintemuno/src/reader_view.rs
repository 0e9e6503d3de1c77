//! One reader's record, to be asked.

use std::{fmt, iter};

use crate::{
    ffi::{self, Cursor, FragmentCursor, FragmentNumber, ReaderProxy, SequenceNumber},
    record::WORDS_PER_SAMPLE,
    refusal::given,
};

/// What the writer knows of one reader, read only: of a
/// [`Writer`](crate::Writer)'s reader, or of an
/// [`RtpsReaderProxy`](crate::RtpsReaderProxy).
///
/// A question that steps along is an iterator, whose every step is a call of its
/// own that checks what is held.
#[derive(Clone, Copy, PartialEq, Eq)]
pub struct ReaderView<'a> {
    proxy: ReaderProxy,
    unsent: &'a [u64],
    gaps: &'a [u64],
    samples: &'a [u64],
    words: &'a [u64],
}

/// The part of a room that holds something.
fn held(room: &[u64], numbers: usize) -> &[u64] {
    let end = numbers.min(room.len());
    &room[..end]
}

impl<'a> ReaderView<'a> {
    /// The rooms are given whole; each question lends what is held in its own.
    pub(crate) fn new(
        proxy: ReaderProxy,
        unsent: &'a [u64],
        gaps: &'a [u64],
        samples: &'a [u64],
        words: &'a [u64],
    ) -> Self {
        ReaderView {
            proxy,
            unsent,
            gaps,
            samples,
            words,
        }
    }

    fn unsent(self) -> &'a [u64] {
        held(self.unsent, self.proxy.unsent_count)
    }

    fn gaps(self) -> &'a [u64] {
        held(self.gaps, self.proxy.gap_count)
    }

    /// The samples with requested fragments, and their words.
    fn frags(self) -> (&'a [u64], &'a [u64]) {
        let samples = self.proxy.frag_count;
        (
            held(self.samples, samples),
            held(self.words, samples * WORDS_PER_SAMPLE),
        )
    }

    /// The reader has acknowledged all numbers before this one.
    pub fn acked_up_to_before(self) -> SequenceNumber {
        self.proxy.all_acked_before
    }

    /// How many numbers are unsent.
    pub fn unsent_changes_count(self) -> usize {
        self.proxy.unsent_count
    }

    /// The smallest unsent number.
    pub fn first_unsent_change(self) -> Option<SequenceNumber> {
        let first = ffi::reader_first_unsent_change(self.proxy, self.unsent());
        given(first.answer, first.number).ok()
    }

    /// The unsent numbers, rising.
    pub fn unsent_changes_iter(self) -> impl Iterator<Item = SequenceNumber> + 'a {
        let mut at = Cursor::default();
        iter::from_fn(move || {
            let next = ffi::reader_next_unsent_change(self.proxy, self.unsent(), at);
            at = next.cursor;
            given(next.answer, next.number).ok()
        })
        .fuse()
    }

    /// The pending gap, rising, without what is acknowledged. It may be long: a
    /// prefix isn't kept number by number.
    pub fn get_pending_gap(self) -> impl Iterator<Item = SequenceNumber> + 'a {
        let mut at = Cursor::default();
        iter::from_fn(move || {
            let next = ffi::reader_next_pending_gap(self.proxy, self.gaps(), at);
            at = next.cursor;
            given(next.answer, next.number).ok()
        })
        .fuse()
    }

    /// The requested fragments, rising, of the smallest sample that has any.
    pub fn frags_requested_iterator(
        self,
    ) -> impl Iterator<Item = (SequenceNumber, FragmentNumber)> + 'a {
        let mut at = FragmentCursor::default();
        iter::from_fn(move || {
            let (samples, words) = self.frags();
            let next = ffi::reader_next_frag_requested(self.proxy, samples, words, at);
            at = next.cursor;
            given(next.answer, (next.sample, next.fragment)).ok()
        })
        .fuse()
    }

    /// Whether any fragment is asked for.
    pub fn repair_frags_requested(self) -> bool {
        let (samples, words) = self.frags();
        ffi::reader_repair_frags_requested(self.proxy, samples, words).yes
    }
}

impl fmt::Debug for ReaderView<'_> {
    fn fmt(&self, f: &mut fmt::Formatter<'_>) -> fmt::Result {
        f.debug_struct("ReaderView")
            .field("all_acked_before", &self.proxy.all_acked_before.0)
            .field("unsent_cap", &self.proxy.unsent_cap)
            .field("unsent", &self.unsent())
            .field("gap_prefix_end", &self.proxy.gap_prefix_end.0)
            .field("gaps", &self.gaps())
            .field("frag_samples", &self.frags().0)
            .finish()
    }
}
