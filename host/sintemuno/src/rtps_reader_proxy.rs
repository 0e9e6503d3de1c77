//! One reader, as the writer keeps it.

use std::fmt;

use crate::{
    ffi::{
        self, FragmentNumber, FragmentNumberSet, ReaderProxy, SequenceNumber, SequenceNumberSet,
    },
    reader_view::ReaderView,
    record::{Record, WORDS_PER_SAMPLE},
    refusal::{given, Result},
};

/// What the writer knows of one reader: what it has acknowledged, what is unsent
/// to it, what it isn't to get, and which fragments it asked for.
///
/// It owns its rooms, made by `new`; no call allocates. The rooms are changed by
/// the proved calls alone, which keep them coherent.
#[derive(Clone, PartialEq, Eq)]
pub struct RtpsReaderProxy {
    proxy: ReaderProxy,
    unsent: Box<[u64]>,
    gaps: Box<[u64]>,
    samples: Box<[u64]>,
    words: Box<[u64]>,
}

/// A room.
pub(crate) fn zeros(count: usize) -> Box<[u64]> {
    vec![0; count].into_boxed_slice()
}

impl RtpsReaderProxy {
    /// The largest cap, and the default one.
    pub const MOST_UNSENT: usize = 1024;
    /// Gap members above the prefix end.
    pub const GAPS: usize = 256;
    /// Samples with requested fragments.
    pub const FRAG_SAMPLES: usize = 16;

    /// A new reader: nothing acknowledged, nothing unsent. The cap is how many
    /// unsent numbers are kept, 1 to 1,024.
    pub fn new(cap: usize) -> Result<Self> {
        let made = ffi::reader_new(cap);
        let proxy = given(made.answer, made.proxy)?;
        Ok(RtpsReaderProxy {
            proxy,
            unsent: zeros(cap),
            gaps: zeros(Self::GAPS),
            samples: zeros(Self::FRAG_SAMPLES),
            words: zeros(Self::FRAG_SAMPLES * WORDS_PER_SAMPLE),
        })
    }

    /// As new, in the same rooms.
    pub fn clear(&mut self) {
        let made = ffi::reader_new(self.proxy.unsent_cap);
        self.record().clear(made.proxy);
    }

    /// The record, to be asked: all questions below are those of the view.
    pub fn view(&self) -> ReaderView<'_> {
        ReaderView::new(
            self.proxy,
            &self.unsent,
            &self.gaps,
            &self.samples,
            &self.words,
        )
    }

    pub(crate) fn proxy(&self) -> ReaderProxy {
        self.proxy
    }

    /// The record, to be changed.
    pub(crate) fn record(&mut self) -> Record<'_> {
        Record {
            proxy: &mut self.proxy,
            unsent: &mut self.unsent,
            gaps: &mut self.gaps,
            samples: &mut self.samples,
            words: &mut self.words,
        }
    }
}

/// Acknowledged and unsent numbers.
impl RtpsReaderProxy {
    /// The reader has acknowledged all numbers before this one.
    pub fn acked_up_to_before(&self) -> SequenceNumber {
        self.view().acked_up_to_before()
    }

    /// How many numbers are unsent.
    pub fn unsent_changes_count(&self) -> usize {
        self.view().unsent_changes_count()
    }

    /// The smallest unsent number.
    pub fn first_unsent_change(&self) -> Option<SequenceNumber> {
        self.view().first_unsent_change()
    }

    /// The unsent numbers, rising. Each step is a call of its own that checks
    /// the room; [`take_unsent`](Self::take_unsent) takes many under one check.
    pub fn unsent_changes_iter(&self) -> impl Iterator<Item = SequenceNumber> + '_ {
        self.view().unsent_changes_iter()
    }

    /// A new sample's number joins the unsent ones; above the cap the smallest
    /// go.
    pub fn notify_new_cache_change(&mut self, number: SequenceNumber) -> Result<()> {
        let mut record = self.record();
        let (proxy, unsent) = (*record.proxy, record.unsent(1));
        let changed = ffi::reader_notify_new_cache_change(proxy, unsent, number);
        record.keep(changed)
    }

    /// One number is unsent no longer. Any number is taken.
    pub fn mark_change_sent(&mut self, number: SequenceNumber) -> Result<()> {
        self.record().mark_change_sent(number)
    }

    /// All numbers below this one are unsent no longer. Any number is taken.
    pub fn remove_from_unsent_set_all_before(&mut self, before: SequenceNumber) -> Result<()> {
        let mut record = self.record();
        let (proxy, unsent) = (*record.proxy, record.unsent(0));
        let changed = ffi::reader_remove_from_unsent_set_all_before(proxy, unsent, before);
        record.keep(changed)
    }

    /// The smallest unsent numbers, as many as `out` has room for, are written
    /// there and marked sent. Returns the part of `out` that has them.
    ///
    /// ```
    /// # use sintemuno::{RtpsReaderProxy, SequenceNumber};
    /// let mut line = RtpsReaderProxy::new(8)?;
    /// for number in [3, 1, 2] {
    ///     line.notify_new_cache_change(SequenceNumber(number))?;
    /// }
    /// assert_eq!(line.take_unsent(&mut [0; 2])?, &[1, 2]);
    /// assert_eq!(line.first_unsent_change(), Some(SequenceNumber(3)));
    /// # Ok::<(), sintemuno::Refusal>(())
    /// ```
    pub fn take_unsent<'a>(&mut self, out: &'a mut [u64]) -> Result<&'a [u64]> {
        let mut record = self.record();
        let taken = ffi::reader_take_unsent(*record.proxy, record.unsent(0), out);
        self.proxy = taken.proxy;
        given(taken.answer, &out[..taken.count])
    }

    /// An ACKNACK is taken; `last_available` is the last number written. Returns
    /// how many of the numbers found no room under the cap.
    ///
    /// ```
    /// # use sintemuno::{Refusal, RtpsReaderProxy, SequenceNumber, SequenceNumberSet};
    /// let mut line = RtpsReaderProxy::new(8)?;
    /// let last = SequenceNumber(5);
    /// // All below 3 arrived; 3 and 5 are asked for.
    /// let asked = SequenceNumberSet::new(SequenceNumber(3), &[3, 5])?;
    /// assert_eq!(line.handle_ack_nack(&asked, last), Ok(0));
    /// assert_eq!(line.acked_up_to_before(), SequenceNumber(3));
    /// let unsent: Vec<i64> = line.unsent_changes_iter().map(i64::from).collect();
    /// assert_eq!(unsent, [3, 5]);
    /// // A base above last + 1 is ignored.
    /// let forged = SequenceNumberSet::empty(SequenceNumber(7));
    /// assert_eq!(line.handle_ack_nack(&forged, last), Err(Refusal::Ahead));
    /// # Ok::<(), Refusal>(())
    /// ```
    pub fn handle_ack_nack(
        &mut self,
        reader_sn_state: &SequenceNumberSet,
        last_available: SequenceNumber,
    ) -> Result<usize> {
        let (proxy, set) = (self.proxy, *reader_sn_state);
        let mut record = self.record();
        let (unsent, gaps) = record.for_ack_nack(&set);
        let taken = ffi::reader_handle_ack_nack(proxy, unsent, gaps, set, last_available);
        self.proxy = taken.proxy;
        given(taken.answer, taken.left_out)
    }
}

/// The pending gap: samples that this reader isn't to get.
impl RtpsReaderProxy {
    /// One sample. `last` is the last number written.
    pub fn insert_pending_gap(
        &mut self,
        number: SequenceNumber,
        last: SequenceNumber,
    ) -> Result<()> {
        let mut record = self.record();
        let (proxy, gaps) = (*record.proxy, record.gaps(1));
        let changed = ffi::reader_insert_pending_gap(proxy, gaps, number, last);
        record.keep(changed)
    }

    /// All samples from 1 through `end`. `last` is the last number written.
    pub fn set_pending_gap_up_to(
        &mut self,
        end: SequenceNumber,
        last: SequenceNumber,
    ) -> Result<()> {
        let mut record = self.record();
        let (proxy, gaps) = (*record.proxy, record.gaps(0));
        let changed = ffi::reader_set_pending_gap_up_to(proxy, gaps, end, last);
        record.keep(changed)
    }

    /// The pending gap, rising, without what is acknowledged. It may be long: a
    /// prefix isn't kept number by number.
    pub fn get_pending_gap(&self) -> impl Iterator<Item = SequenceNumber> + '_ {
        self.view().get_pending_gap()
    }
}

/// Requested fragments.
impl RtpsReaderProxy {
    /// Fragments of one sample are asked for.
    pub fn mark_frags_requested(
        &mut self,
        number: SequenceNumber,
        frag_nums: &FragmentNumberSet,
    ) -> Result<()> {
        let proxy = self.proxy;
        let mut record = self.record();
        let (samples, words) = record.frags(1);
        let changed = ffi::reader_mark_frags_requested(proxy, samples, words, number, *frag_nums);
        record.keep(changed)
    }

    /// A fragment was sent. Any numbers are taken.
    pub fn mark_frag_sent(
        &mut self,
        number: SequenceNumber,
        fragment: FragmentNumber,
    ) -> Result<()> {
        self.record().mark_frag_sent(number, fragment)
    }

    /// The requested fragments, rising, of the smallest sample that has any.
    ///
    /// ```
    /// # use sintemuno::{FragmentNumber, FragmentNumberSet, RtpsReaderProxy, SequenceNumber};
    /// let mut line = RtpsReaderProxy::new(8)?;
    /// let none = FragmentNumberSet::new(FragmentNumber(1), &[])?;
    /// let two = FragmentNumberSet::new(FragmentNumber(2), &[2])?;
    /// line.mark_frags_requested(SequenceNumber(4), &none)?;
    /// line.mark_frags_requested(SequenceNumber(9), &two)?;
    /// let next = line.frags_requested_iterator().next();
    /// assert_eq!(next, Some((SequenceNumber(9), FragmentNumber(2))));
    /// # Ok::<(), sintemuno::Refusal>(())
    /// ```
    pub fn frags_requested_iterator(
        &self,
    ) -> impl Iterator<Item = (SequenceNumber, FragmentNumber)> + '_ {
        self.view().frags_requested_iterator()
    }

    /// Whether any fragment is asked for.
    pub fn repair_frags_requested(&self) -> bool {
        self.view().repair_frags_requested()
    }
}

impl fmt::Debug for RtpsReaderProxy {
    fn fmt(&self, f: &mut fmt::Formatter<'_>) -> fmt::Result {
        let view = self.view();
        f.debug_tuple("RtpsReaderProxy").field(&view).finish()
    }
}
