//! The model reader, and a clean round between it and the writer.

use std::collections::BTreeSet;

use crate::{
    numbers::{Answer, Refusal},
    set::NumberSet,
    steps::Sent,
    writer::Writer,
};

#[derive(Clone, PartialEq, Eq, Debug, Default)]
pub struct ModelReader {
    pub settled: BTreeSet<i64>,
    pub known: i64,
}

impl ModelReader {
    /// Data, or a gap, for n.
    pub fn settle(&mut self, number: i64) {
        self.settled.insert(number);
        self.known = self.known.max(number);
    }

    pub fn heartbeat(&mut self, last: i64) {
        self.known = self.known.max(last);
    }

    /// The smallest positive number not settled.
    pub fn base(&self) -> i64 {
        let mut base = 1;
        while self.settled.contains(&base) {
            base += 1;
        }
        base
    }

    /// All unsettled numbers from base through the smaller of known and
    /// base+255.
    pub fn acknack(&self) -> NumberSet {
        let base = self.base();
        let end = self.known.min(base.saturating_add(255));
        let open: Vec<i64> = (base..=end).filter(|n| !self.settled.contains(n)).collect();
        NumberSet::of(base, &open).expect("at most 256 numbers")
    }
}

/// Heartbeat, ACKNACK taken, unsent numbers sent and received until none is
/// left, second ACKNACK taken.
pub fn clean_round(writer: &mut Writer, id: u64, end: &mut ModelReader) -> Answer<()> {
    end.heartbeat(writer.buffer.flow.last);
    writer.take_ack(id, &end.acknack())?;
    loop {
        match writer.send_step(id) {
            Ok(Sent::Data(number, _)) | Ok(Sent::Gap(number)) => end.settle(number),
            Err(Refusal::NothingThere) => break,
            Err(other) => return Err(other),
        }
    }
    writer.take_ack(id, &end.acknack())?;
    Ok(())
}
