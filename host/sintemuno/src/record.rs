//! One reader's record, lent to the calls that change it: its proxy, and its
//! rooms in part. A call takes time by what it is lent, so each gets what is
//! held and the room that it may need.

use crate::{
    ffi::{self, Changed, FragmentNumber, ReaderProxy, SequenceNumber, SequenceNumberSet},
    refusal::{given, Result},
};

/// Words of bits for each sample with requested fragments.
pub(crate) const WORDS_PER_SAMPLE: usize = 64;

/// The most bits that a set has.
const MOST_BITS: u32 = 256;

/// A reader's proxy, and its rooms whole.
pub(crate) struct Record<'a> {
    pub proxy: &'a mut ReaderProxy,
    pub unsent: &'a mut [u64],
    pub gaps: &'a mut [u64],
    pub samples: &'a mut [u64],
    pub words: &'a mut [u64],
}

/// So many numbers from a room's start, or all that the room has.
fn part(room: &mut [u64], numbers: usize) -> &mut [u64] {
    let end = numbers.min(room.len());
    &mut room[..end]
}

/// The parts of the rooms.
impl Record<'_> {
    /// The unsent numbers, with room for so many more.
    pub fn unsent(&mut self, more: usize) -> &mut [u64] {
        part(self.unsent, self.proxy.unsent_count + more)
    }

    /// The gap members, with room for so many more.
    pub fn gaps(&mut self, more: usize) -> &mut [u64] {
        part(self.gaps, self.proxy.gap_count + more)
    }

    /// The unsent numbers, with room for all that the ACKNACK may ask for, and
    /// the gap members.
    pub fn for_ack_nack(&mut self, set: &SequenceNumberSet) -> (&mut [u64], &mut [u64]) {
        let asked = set.count.min(MOST_BITS) as usize;
        (
            part(self.unsent, self.proxy.unsent_count + asked),
            part(self.gaps, self.proxy.gap_count),
        )
    }

    /// The samples with requested fragments and their words, with room for so
    /// many samples more.
    pub fn frags(&mut self, more: usize) -> (&mut [u64], &mut [u64]) {
        let samples = self.proxy.frag_count + more;
        (
            part(self.samples, samples),
            part(self.words, samples * WORDS_PER_SAMPLE),
        )
    }
}

/// The calls that a reader's own type and a writer both make.
impl Record<'_> {
    /// The proxy as the call hands it back.
    pub fn keep(&mut self, changed: Changed) -> Result<()> {
        *self.proxy = changed.proxy;
        given(changed.answer, ())
    }

    /// This proxy, and nothing in the rooms.
    pub fn clear(self, proxy: ReaderProxy) {
        *self.proxy = proxy;
        for room in [self.unsent, self.gaps, self.samples, self.words] {
            room.fill(0);
        }
    }

    pub fn mark_change_sent(&mut self, number: SequenceNumber) -> Result<()> {
        let changed = ffi::reader_mark_change_sent(*self.proxy, self.unsent(0), number);
        self.keep(changed)
    }

    pub fn mark_frag_sent(
        &mut self,
        number: SequenceNumber,
        fragment: FragmentNumber,
    ) -> Result<()> {
        let proxy = *self.proxy;
        let (samples, words) = self.frags(0);
        let changed = ffi::reader_mark_frag_sent(proxy, samples, words, number, fragment);
        self.keep(changed)
    }
}
