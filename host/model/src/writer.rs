//! A writer with its readers: the steps on whole, coherent parts.

use std::collections::BTreeMap;

use crate::{
    list::ReaderList,
    numbers::{first_of, Answer, Refusal},
    reader::Reader,
    set::{FragmentSet, NumberSet},
    steps::{self, Sent},
    store::SendBuffer,
};

#[derive(Clone, PartialEq, Eq, Debug)]
pub struct Writer {
    pub buffer: SendBuffer,
    pub list: ReaderList,
    pub records: BTreeMap<u64, Reader>,
}

impl Writer {
    pub fn new(buffer: SendBuffer, room: usize) -> Answer<Writer> {
        Ok(Writer {
            buffer,
            list: ReaderList::new(room)?,
            records: BTreeMap::new(),
        })
    }

    fn coherent(&self) -> Answer<()> {
        first_of(&[(!self.is_coherent(), Refusal::Incoherent)])
    }

    /// The answer is "wake", here and below.
    pub fn match_reader(&mut self, id: u64, reliable: bool, cap: usize) -> Answer<bool> {
        let record = Reader::new(cap)?;
        self.coherent()?;
        let flow = &mut self.buffer.flow;
        let wake = steps::match_reader(&mut self.list, flow, id, reliable, cap)?;
        self.records.insert(id, record);
        Ok(wake)
    }

    pub fn depart(&mut self, id: u64) -> Answer<bool> {
        self.coherent()?;
        let wake = steps::depart(&mut self.list, &mut self.buffer.flow, id)?;
        self.records.remove(&id);
        Ok(wake)
    }

    /// How many numbers were left out at the cap, and "wake".
    pub fn take_ack(&mut self, id: u64, set: &NumberSet) -> Answer<(u64, bool)> {
        self.coherent()?;
        let mut nobody = Reader::new(1)?;
        let record = self.records.get_mut(&id).unwrap_or(&mut nobody);
        steps::take_ack(&mut self.list, &mut self.buffer.flow, record, id, set)
    }

    pub fn request_fragments(&mut self, id: u64, sample: i64, set: &FragmentSet) -> Answer<()> {
        self.coherent()?;
        let mut nobody = Reader::new(1)?;
        let record = self.records.get_mut(&id).unwrap_or(&mut nobody);
        steps::request_fragments(&self.list, record, id, sample, set)
    }

    /// Admits a sample and tells every reader its number.
    pub fn write(&mut self, opted_in: bool, bytes: &[u8]) -> Answer<i64> {
        self.coherent()?;
        let mut records: Vec<&mut Reader> = self.records.values_mut().collect();
        steps::write(&mut self.buffer, &mut records, opted_in, bytes)
    }

    /// Sends the first unsent number: data if retained, else a gap.
    pub fn send_step(&mut self, id: u64) -> Answer<Sent> {
        let sent = self.send_many(id, 1)?;
        sent.into_iter().next().ok_or(Refusal::NothingThere)
    }

    /// The first unsent numbers, at most so many.
    pub fn send_many(&mut self, id: u64, most: usize) -> Answer<Vec<Sent>> {
        self.coherent()?;
        let record = self.records.get_mut(&id).ok_or(Refusal::BadReader)?;
        steps::send_many(&self.buffer, record, most)
    }

    /// The number was sent to the reader: marked, and the sent frontier raised.
    pub fn mark_sent(&mut self, id: u64, number: i64) -> Answer<bool> {
        first_of(&[
            (!self.is_coherent(), Refusal::Incoherent),
            (number > self.buffer.flow.last, Refusal::OutOfRange),
            (!self.records.contains_key(&id), Refusal::BadReader),
        ])?;
        let record = self.records.get_mut(&id).ok_or(Refusal::BadReader)?;
        record.mark_change_sent(number)?;
        self.buffer.flow.set_sent_frontier(number)
    }
}
