//! Numbers that a reader is told as gaps: a prefix and single members.

use crate::{
    numbers::{first_of, is_last, Answer, Refusal, MOST_GAPS},
    reader::Reader,
};

impl Reader {
    pub fn insert_pending_gap(&mut self, number: i64, last: i64) -> Answer<()> {
        let takes_room =
            number > self.prefix_end && number >= self.acked && !self.gaps.contains(&number);
        let full = self.gaps.len() >= MOST_GAPS;
        let outside = !is_last(last) || number < 1 || number > last;
        first_of(&[
            (!self.is_coherent(), Refusal::Incoherent),
            (outside, Refusal::OutOfRange),
            (takes_room && full, Refusal::GapsFull),
        ])?;
        if takes_room {
            self.gaps.insert(number);
        }
        Ok(())
    }

    /// Everything from 1 through `end` is a gap.
    pub fn set_pending_gap_up_to(&mut self, end: i64, last: i64) -> Answer<()> {
        let outside = !is_last(last) || end < 0 || end > last;
        first_of(&[
            (!self.is_coherent(), Refusal::Incoherent),
            (outside, Refusal::OutOfRange),
        ])?;
        self.prefix_end = self.prefix_end.max(end);
        let prefix_end = self.prefix_end;
        self.gaps.retain(|n| *n > prefix_end);
        Ok(())
    }

    /// The first pending gap number at or after the one given: the prefix and
    /// the members, without numbers below A.
    pub fn next_pending_gap(&self, from: i64) -> Answer<i64> {
        first_of(&[(!self.is_coherent(), Refusal::Incoherent)])?;
        let start = from.max(self.acked).max(1);
        if start <= self.prefix_end {
            return Ok(start);
        }
        let next = self.gaps.range(start..).next();
        next.copied().ok_or(Refusal::NothingThere)
    }
}
