//! One reader: acknowledgements and the unsent set.

use std::collections::{BTreeMap, BTreeSet};

use crate::{
    numbers::{first_of, is_last, is_sample, Answer, Refusal, MOST_UNSENT},
    set::NumberSet,
};

#[derive(Clone, PartialEq, Eq, Debug)]
pub struct Reader {
    /// `all_acked_before`, A in document 01.
    pub acked: i64,
    /// M in document 01.
    pub cap: usize,
    pub unsent: BTreeSet<i64>,
    /// The gap prefix runs from 1 through this; 0 is no prefix.
    pub prefix_end: i64,
    /// Gap members above the prefix end.
    pub gaps: BTreeSet<i64>,
    /// Requested fragments by sample; no entry is empty.
    pub frags: BTreeMap<i64, BTreeSet<u32>>,
}

impl Reader {
    pub const DEFAULT_CAP: usize = 1024;

    pub fn new(cap: usize) -> Answer<Reader> {
        let allowed = (1..=MOST_UNSENT).contains(&cap);
        first_of(&[(!allowed, Refusal::LimitNotAllowed)])?;
        Ok(Reader {
            acked: 0,
            cap,
            unsent: BTreeSet::new(),
            prefix_end: 0,
            gaps: BTreeSet::new(),
            frags: BTreeMap::new(),
        })
    }

    /// The answer is how many numbers were left out at the cap.
    pub fn handle_ack_nack(&mut self, set: &NumberSet, last: i64) -> Answer<u64> {
        // Base 0 counts as 1.
        let base = set.base.max(1);
        first_of(&[
            (!self.is_coherent(), Refusal::Incoherent),
            (set.is_too_long(), Refusal::SetTooLong),
            (!is_last(last) || set.base < 0, Refusal::OutOfRange),
            (above_next(base, last), Refusal::BaseAboveLast),
        ])?;
        let late = base < self.acked;
        let from = base.max(self.acked);
        let asked = set.members().into_iter();
        let asked = asked.filter(|n| (i128::from(from)..=i128::from(last)).contains(n));
        let mut wanted = self.unsent.clone();
        if !late {
            wanted.retain(|n| (base..=last).contains(n));
            self.gaps.retain(|n| *n >= base);
            self.acked = base;
        }
        wanted.extend(asked.map(|n| n as i64));
        let left_out = wanted.len().saturating_sub(self.cap);
        self.unsent = wanted.into_iter().take(self.cap).collect();
        Ok(left_out as u64)
    }

    /// A new sample's number; above the cap the smallest go.
    pub fn notify_new_cache_change(&mut self, number: i64) -> Answer<()> {
        first_of(&[
            (!self.is_coherent(), Refusal::Incoherent),
            (!is_sample(number), Refusal::OutOfRange),
        ])?;
        self.unsent.insert(number);
        let surplus = self.unsent.len().saturating_sub(self.cap);
        self.unsent = self.unsent.iter().copied().skip(surplus).collect();
        Ok(())
    }

    pub fn mark_change_sent(&mut self, number: i64) -> Answer<()> {
        first_of(&[(!self.is_coherent(), Refusal::Incoherent)])?;
        self.unsent.remove(&number);
        Ok(())
    }

    pub fn remove_from_unsent_set_all_before(&mut self, number: i64) -> Answer<()> {
        first_of(&[(!self.is_coherent(), Refusal::Incoherent)])?;
        self.unsent.retain(|n| *n >= number);
        Ok(())
    }

    /// The first unsent number at or after the one given.
    pub fn next_unsent(&self, from: i64) -> Answer<i64> {
        first_of(&[(!self.is_coherent(), Refusal::Incoherent)])?;
        let next = self.unsent.range(from..).next();
        next.copied().ok_or(Refusal::NothingThere)
    }
}

/// number > last+1, for any two numbers.
pub fn above_next(number: i64, last: i64) -> bool {
    i128::from(number) > i128::from(last) + 1
}
