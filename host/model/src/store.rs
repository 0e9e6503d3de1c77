//! Admission and the retained samples.

use std::collections::BTreeMap;

use crate::{
    flow::{Flow, Kind, Limits},
    numbers::{first_of, Answer, Refusal, LAST_SAMPLE},
};

#[derive(Clone, PartialEq, Eq, Debug)]
pub struct SendBuffer {
    pub flow: Flow,
    /// The bytes of `first` through `last`.
    pub samples: BTreeMap<i64, Vec<u8>>,
}

impl SendBuffer {
    pub fn new(kind: Kind, limits: Limits) -> Answer<SendBuffer> {
        Ok(SendBuffer {
            flow: Flow::new(kind, limits)?,
            samples: BTreeMap::new(),
        })
    }

    /// The answer is the sample's number.
    pub fn admit(&mut self, opted_in: bool, bytes: &[u8]) -> Answer<i64> {
        let flow = &self.flow;
        let limits = flow.limits;
        let trims = flow.trims(opted_in);
        let full = self.samples.len() as u64 >= limits.slots;
        first_of(&[
            (!self.is_coherent(), Refusal::Incoherent),
            (
                bytes.len() as u64 > limits.slot_bytes,
                Refusal::PayloadTooLong,
            ),
            (flow.last == LAST_SAMPLE, Refusal::NumbersUsedUp),
            (!flow.has_room(opted_in), Refusal::WouldBlock),
            (!trims && full, Refusal::StoreFull),
        ])?;
        let number = flow.last + 1;
        self.flow.last = number;
        self.samples.insert(number, bytes.to_vec());
        if trims {
            let oldest_kept = number + 1 - limits.retain as i64;
            self.flow.first = self.flow.first.max(oldest_kept);
            self.drop_before_first();
        }
        Ok(number)
    }

    pub fn evict_before(&mut self, number: i64) -> Answer<()> {
        first_of(&[(!self.is_coherent(), Refusal::Incoherent)])?;
        self.flow.evict_before(number)?;
        self.drop_before_first();
        Ok(())
    }

    pub fn get(&self, number: i64) -> Answer<&[u8]> {
        first_of(&[(!self.is_coherent(), Refusal::Incoherent)])?;
        let bytes = self.samples.get(&number);
        bytes.map(Vec::as_slice).ok_or(Refusal::NothingThere)
    }

    fn drop_before_first(&mut self) {
        self.samples = self.samples.split_off(&self.flow.first);
    }
}
