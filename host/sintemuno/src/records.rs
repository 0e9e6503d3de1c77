//! The readers' records side by side, as a write is lent them.

use std::{fmt, ops::Range};

use crate::{
    ffi::ReaderProxy,
    reader_view::ReaderView,
    record::{Record, WORDS_PER_SAMPLE},
    refusal::Result,
    rtps_reader_proxy::{zeros, RtpsReaderProxy},
};

const GAPS: usize = RtpsReaderProxy::GAPS;
const SAMPLES: usize = RtpsReaderProxy::FRAG_SAMPLES;
const WORDS: usize = SAMPLES * WORDS_PER_SAMPLE;

/// A place for each slot of the reader list: a proxy, and a stretch of each
/// room. Where no reader is, all is zero.
#[derive(Clone, PartialEq, Eq)]
pub(crate) struct Records {
    proxies: Box<[ReaderProxy]>,
    unsent: Box<[u64]>,
    gaps: Box<[u64]>,
    samples: Box<[u64]>,
    words: Box<[u64]>,
    /// A new reader's record. It is lent where the reader isn't there: the
    /// library finds the number, and changes nothing.
    nobody: RtpsReaderProxy,
}

fn stretch(place: usize, each: usize) -> Range<usize> {
    place * each..(place + 1) * each
}

impl Records {
    /// So many places, for readers of this cap.
    pub fn new(places: usize, cap: usize) -> Result<Self> {
        let nobody = RtpsReaderProxy::new(cap)?;
        Ok(Records {
            proxies: vec![ReaderProxy::default(); places].into_boxed_slice(),
            unsent: zeros(places * cap),
            gaps: zeros(places * GAPS),
            samples: zeros(places * SAMPLES),
            words: zeros(places * WORDS),
            nobody,
        })
    }

    /// The readers' cap.
    pub fn cap(&self) -> usize {
        self.nobody.proxy().unsent_cap
    }

    /// A reader comes to the place: its record is new.
    pub fn begin(&mut self, place: usize) {
        self.proxies[place] = self.nobody.proxy();
    }

    /// The reader goes.
    pub fn end(&mut self, place: usize) {
        self.record(Some(place)).clear(ReaderProxy::default());
    }

    /// The record at the place, or that of no reader.
    pub fn record(&mut self, place: Option<usize>) -> Record<'_> {
        let cap = self.cap();
        let place = match place {
            Some(place) => place,
            None => return self.nobody.record(),
        };
        Record {
            proxy: &mut self.proxies[place],
            unsent: &mut self.unsent[stretch(place, cap)],
            gaps: &mut self.gaps[stretch(place, GAPS)],
            samples: &mut self.samples[stretch(place, SAMPLES)],
            words: &mut self.words[stretch(place, WORDS)],
        }
    }

    /// The record at the place, to be asked.
    pub fn view(&self, place: usize) -> ReaderView<'_> {
        ReaderView::new(
            self.proxies[place],
            &self.unsent[stretch(place, self.cap())],
            &self.gaps[stretch(place, GAPS)],
            &self.samples[stretch(place, SAMPLES)],
            &self.words[stretch(place, WORDS)],
        )
    }

    /// All proxies and the unsent room of all.
    pub fn side_by_side(&mut self) -> (&mut [ReaderProxy], &mut [u64]) {
        (&mut self.proxies, &mut self.unsent)
    }
}

/// The readers that are there.
impl fmt::Debug for Records {
    fn fmt(&self, f: &mut fmt::Formatter<'_>) -> fmt::Result {
        let there = |place: &usize| self.proxies[*place] != ReaderProxy::default();
        let places = (0..self.proxies.len()).filter(there);
        f.debug_list()
            .entries(places.map(|p| self.view(p)))
            .finish()
    }
}
