//! A writer with its readers: what a server runs, a method for each event.

use crate::{
    ffi::{
        self, FragmentNumber, FragmentNumberSet, Kind, Limits, Match, SequenceNumber,
        SequenceNumberSet,
    },
    reader_list::ReaderList,
    reader_view::ReaderView,
    records::Records,
    refusal::{given, Result},
    sent::{Sent, SentMany, SentRoom},
    writer_send_buffer::WriterSendBuffer,
};

/// What an accepted ACKNACK did.
#[derive(Clone, Copy, Debug, PartialEq, Eq)]
pub struct Acknowledged {
    /// How many of the requested numbers found no room under the cap.
    pub left_out: usize,
    /// Whether to wake who waits for room.
    pub wake: bool,
}

/// A writer: its send buffer, the reader list, and a record for each reader.
///
/// A match, a departure, an ACKNACK, a NACK_FRAG and a write are each one proved
/// step of the library: the frontier is stored with the first three, and every
/// reader is told of each admitted number, as document 01 has it. All rooms are
/// made by `new`; no other call allocates. A refused call changes nothing, and
/// its number is the library's.
#[derive(Clone, Debug)]
pub struct Writer {
    buffer: WriterSendBuffer,
    list: ReaderList,
    /// The record of the reader in the slot of the same place.
    records: Records,
    sent: Box<SentRoom>,
}

/// What the last send step wrote down doesn't count.
impl PartialEq for Writer {
    fn eq(&self, other: &Self) -> bool {
        (&self.buffer, &self.list, &self.records) == (&other.buffer, &other.list, &other.records)
    }
}

impl Eq for Writer {}

impl Writer {
    /// As many as [`send_many`](Self::send_many) sends in one call.
    pub const MOST_SENT: usize = SentRoom::MOST;

    /// A writer with room for so many readers, 1 to 64, each with this cap of
    /// unsent numbers, 1 to 1,024.
    pub fn new(kind: Kind, limits: Limits, readers: usize, cap: usize) -> Result<Self> {
        Ok(Writer {
            buffer: WriterSendBuffer::new(kind, limits)?,
            list: ReaderList::new(readers)?,
            records: Records::new(readers, cap)?,
            sent: SentRoom::new(),
        })
    }

    /// The send buffer.
    pub fn buffer(&self) -> &WriterSendBuffer {
        &self.buffer
    }

    /// The reader list.
    pub fn readers(&self) -> &ReaderList {
        &self.list
    }

    /// One reader's record, to be asked.
    pub fn reader(&self, id: u64) -> Result<ReaderView<'_>> {
        Ok(self.records.view(self.known(id)?))
    }

    /// Where the reader's record is. A plain search, since the list is this
    /// writer's own; a free slot has id 0.
    fn place(&self, id: u64) -> Option<usize> {
        let mut slots = self.list.slots().iter();
        slots.position(|head| head.id == id).filter(|_| id != 0)
    }

    /// The same; where there is none, the library says why.
    fn known(&self, id: u64) -> Result<usize> {
        match self.place(id) {
            Some(place) => Ok(place),
            None => Ok(self.list.matched_reader_lookup(id)?.0),
        }
    }
}

/// Readers that come and go.
impl Writer {
    /// A reader is matched. Returns whether to wake who waits for room.
    pub fn matched_reader_add(&mut self, id: u64, reliable: bool) -> Result<bool> {
        let cap = self.records.cap() as u64;
        let joins = Match { id, reliable, cap };
        let told = ffi::match_reader(&mut self.list.slots, &mut self.buffer.flow, joins);
        let wake = given(told.answer, told.yes)?;
        let place = self.known(id)?;
        self.records.begin(place);
        Ok(wake)
    }

    /// A reader departs. Returns whether to wake who waits for room.
    pub fn matched_reader_remove(&mut self, id: u64) -> Result<bool> {
        let place = self.place(id);
        let told = ffi::depart_reader(&mut self.list.slots, &mut self.buffer.flow, id);
        let wake = given(told.answer, told.yes)?;
        if let Some(place) = place {
            self.records.end(place);
        }
        Ok(wake)
    }
}

/// Samples that are written and sent.
impl Writer {
    /// A sample is written, and every reader told.
    pub fn write(&mut self, opted_in: bool, payload: &[u8]) -> Result<SequenceNumber> {
        let WriterSendBuffer { flow, store, lens } = &mut self.buffer;
        let (proxies, unsent) = self.records.side_by_side();
        let written = ffi::write(flow, store, lens, payload, opted_in, proxies, unsent);
        given(written.answer, written.number)
    }

    /// The send step: the reader's first unsent number is marked sent, as data
    /// where it is retained and else as a gap. It doesn't raise the sent
    /// frontier; [`set_sent_frontier`](Self::set_sent_frontier) does.
    pub fn send_first(&mut self, id: u64) -> Result<Sent<'_>> {
        let place = self.known(id)?;
        let mut record = self.records.record(Some(place));
        let sent = ffi::send_first(self.buffer.flow, *record.proxy, record.unsent(0));
        *record.proxy = sent.proxy;
        let number = given(sent.answer, sent.number)?;
        Ok(match self.buffer.get_by_sn(number) {
            Some(bytes) if sent.data => Sent::Data(number, bytes),
            _ => Sent::Gap(number),
        })
    }

    /// The send step for many, under one check: the reader's first unsent
    /// numbers, `most` of them or as many as there are, and no more than
    /// [`MOST_SENT`](Self::MOST_SENT). They are marked sent by the call itself,
    /// also those that aren't taken from the iterator afterwards. It doesn't
    /// raise the sent frontier.
    ///
    /// ```
    /// # use sintemuno::{Kind, Limits, Refusal, Sent, SequenceNumber, Writer};
    /// # let kind = Kind { reliable: true, builtin: false, volatile: true };
    /// # let limits = Limits { window: 8, backlog: 8, retain: 8, slots: 8, slot_bytes: 64 };
    /// let mut plan = Writer::new(kind, limits, 4, 64)?;
    /// plan.matched_reader_add(1, true)?;
    /// for notice in ["rye, label 7", "oat rolls, label 12", "stop: sesame"] {
    ///     plan.write(false, notice.as_bytes())?;
    /// }
    /// plan.remove_changes_before(SequenceNumber(2))?;
    /// let mut sent = plan.send_many(1, 2)?;
    /// assert_eq!(sent.next(), Some(Sent::Gap(SequenceNumber(1))));
    /// assert_eq!(sent.next(), Some(Sent::Data(SequenceNumber(2), b"oat rolls, label 12")));
    /// assert_eq!(sent.next(), None);
    /// assert_eq!(plan.send_many(1, 2)?.len(), 1);
    /// assert_eq!(plan.send_many(1, 2).err(), Some(Refusal::NothingThere));
    /// # Ok::<(), Refusal>(())
    /// ```
    pub fn send_many(&mut self, id: u64, most: usize) -> Result<SentMany<'_>> {
        let place = self.known(id)?;
        let most = most.min(Self::MOST_SENT);
        let WriterSendBuffer { flow, store, lens } = &self.buffer;
        let mut record = self.records.record(Some(place));
        let sent = ffi::send_many(
            *flow,
            store.len(),
            lens,
            *record.proxy,
            record.unsent(0),
            &mut self.sent.numbers[..most],
            &mut self.sent.starts[..most],
            &mut self.sent.lengths[..most],
        );
        *record.proxy = sent.proxy;
        let count = given(sent.answer, sent.count)?;
        Ok(self.sent.first(count, store))
    }

    /// What has gone out: the sent frontier rises to this number. Returns
    /// whether to wake who waits for room.
    pub fn set_sent_frontier(&mut self, number: SequenceNumber) -> Result<bool> {
        self.buffer.set_sent_frontier(number)
    }

    /// The number was sent to the reader: marked, and the sent frontier raised.
    /// Returns whether to wake who waits for room.
    pub fn mark_change_sent(&mut self, id: u64, number: SequenceNumber) -> Result<bool> {
        // 2 comes before 11: the frontier first, on a copy that is kept only
        // where all is done.
        let mut flow = self.buffer.flow;
        let told = ffi::writer_set_sent_frontier(&mut flow, number);
        let wake = given(told.answer, told.yes)?;
        let place = self.known(id)?;
        self.records.record(Some(place)).mark_change_sent(number)?;
        self.buffer.flow = flow;
        Ok(wake)
    }

    /// A fragment was sent to the reader. Any numbers are taken.
    pub fn mark_frag_sent(
        &mut self,
        id: u64,
        number: SequenceNumber,
        fragment: FragmentNumber,
    ) -> Result<()> {
        let place = self.known(id)?;
        let mut record = self.records.record(Some(place));
        record.mark_frag_sent(number, fragment)
    }

    /// What is retained below the number goes.
    pub fn remove_changes_before(&mut self, number: SequenceNumber) -> Result<()> {
        self.buffer.remove_changes_before(number)
    }
}

/// What the readers ask for. A reader that isn't there is found by the library,
/// since 3 and 2 come before 11.
impl Writer {
    /// An ACKNACK is taken: the reader's record, its place in the list and the
    /// frontier move together.
    pub fn handle_ack_nack(
        &mut self,
        id: u64,
        reader_sn_state: &SequenceNumberSet,
    ) -> Result<Acknowledged> {
        let place = self.place(id);
        let (list, flow) = (&mut self.list.slots, &mut self.buffer.flow);
        let mut record = self.records.record(place);
        let (proxy, set) = (*record.proxy, *reader_sn_state);
        let (unsent, gaps) = record.for_ack_nack(&set);
        let taken = ffi::take_ack_nack(list, flow, proxy, unsent, gaps, id, set);
        *record.proxy = taken.proxy;
        let wake = given(taken.told.answer, taken.told.yes)?;
        let left_out = taken.left_out;
        Ok(Acknowledged { left_out, wake })
    }

    /// A NACK_FRAG is taken.
    pub fn mark_frags_requested(
        &mut self,
        id: u64,
        number: SequenceNumber,
        frag_nums: &FragmentNumberSet,
    ) -> Result<()> {
        let place = self.place(id);
        let mut record = self.records.record(place);
        let (proxy, list) = (*record.proxy, &self.list.slots);
        let (samples, words) = record.frags(1);
        let changed = ffi::take_nack_frag(list, proxy, samples, words, id, number, *frag_nums);
        record.keep(changed)
    }
}
