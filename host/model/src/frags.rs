//! Requested fragments of samples.

use crate::{
    numbers::{first_of, is_sample, Answer, Refusal, MOST_FRAGMENTED, MOST_FRAGMENTS},
    reader::Reader,
    set::FragmentSet,
};

impl Reader {
    pub fn mark_frags_requested(&mut self, sample: i64, set: &FragmentSet) -> Answer<()> {
        let members = set.members();
        let beyond = members.iter().any(|f| *f > u64::from(MOST_FRAGMENTS));
        let new_entry = !members.is_empty() && !self.frags.contains_key(&sample);
        let full = self.frags.len() >= MOST_FRAGMENTED;
        first_of(&[
            (!self.is_coherent(), Refusal::Incoherent),
            (set.is_too_long(), Refusal::SetTooLong),
            (
                !is_sample(sample) || set.base == 0 || beyond,
                Refusal::OutOfRange,
            ),
            (new_entry && full, Refusal::FragmentsFull),
        ])?;
        if !members.is_empty() {
            let entry = self.frags.entry(sample).or_default();
            entry.extend(members.into_iter().map(|f| f as u32));
        }
        Ok(())
    }

    pub fn mark_frag_sent(&mut self, sample: i64, fragment: u32) -> Answer<()> {
        first_of(&[(!self.is_coherent(), Refusal::Incoherent)])?;
        if let Some(entry) = self.frags.get_mut(&sample) {
            entry.remove(&fragment);
            if entry.is_empty() {
                self.frags.remove(&sample);
            }
        }
        Ok(())
    }

    /// The smallest requested number, at or after the one given, of the
    /// smallest sample held.
    pub fn next_fragment(&self, from: u32) -> Answer<(i64, u32)> {
        first_of(&[(!self.is_coherent(), Refusal::Incoherent)])?;
        let (sample, entry) = self.frags.iter().next().ok_or(Refusal::NothingThere)?;
        let next = entry.range(from..).next();
        let fragment = next.copied().ok_or(Refusal::NothingThere)?;
        Ok((*sample, fragment))
    }

    pub fn any_requested(&self) -> Answer<bool> {
        first_of(&[(!self.is_coherent(), Refusal::Incoherent)])?;
        Ok(!self.frags.is_empty())
    }
}
