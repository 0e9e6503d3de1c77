//! Document 01's compared range, rule by rule: whether a call, in the crate's
//! present state, meets one of the differences D1 to D8. The rules look at the
//! crate alone, so a faulty subject can't bend them.

use std::collections::BTreeMap;

use model::{
    numbers::{is_last, is_sample, MOST_BITS, MOST_FRAGMENTED, MOST_FRAGMENTS, MOST_GAPS},
    FragmentSet, Kind, Limits, NumberSet,
};

use crate::{
    calls::{ReaderCall, WriterCall},
    oracle_subject::{OracleReader, OracleWriter},
};

/// The crate writes out every number of a gap prefix; past this it would need
/// more memory than a test should take. Not a rule of document 01.
const LONGEST_PREFIX: i64 = 4096;

/// What the rules need and the crate doesn't show.
pub struct ReaderRange {
    cap: usize,
    prefix_end: i64,
    /// Of each sample with requested fragments: the length of its bit vector,
    /// past which marking a fragment panics in the crate (D5).
    lengths: BTreeMap<i64, u32>,
}

impl ReaderRange {
    pub fn new(cap: usize) -> Self {
        ReaderRange {
            cap,
            prefix_end: 0,
            lengths: BTreeMap::new(),
        }
    }

    pub fn allows(&self, call: &ReaderCall, reader: &OracleReader) -> bool {
        match call {
            ReaderCall::Ack { set, last } => is_last(*last) && self.allows_ack(set, *last, reader),
            // D2, D8.
            ReaderCall::Notify { number } => is_sample(*number),
            ReaderCall::MarkSent { .. } | ReaderCall::RemoveBefore { .. } => true,
            // D2, D6, D7.
            ReaderCall::Gap { number, last } => {
                is_last(*last) && (1..=*last).contains(number) && self.gaps_have_room(reader)
            }
            // D2, D6.
            ReaderCall::GapUpTo { end, last } => {
                is_last(*last) && (0..=*last).contains(end) && *end <= LONGEST_PREFIX
            }
            ReaderCall::Request { sample, set } => self.allows_request(*sample, set),
            // D5.
            ReaderCall::FragSent { sample, fragment } => match self.lengths.get(sample) {
                Some(length) => (1..=*length).contains(fragment),
                None => true,
            },
        }
    }

    fn allows_ack(&self, set: &NumberSet, last: i64, reader: &OracleReader) -> bool {
        let members = set.members();
        let (low, high) = (members.first(), members.last());
        let well_formed = set.count <= MOST_BITS
            && set.base >= 0
            && low.map_or(true, |n| *n >= 1)
            && high.map_or(true, |n| *n <= i128::from(i64::MAX));
        if !well_formed {
            return false; // D2, and sets that no 64-bit number can show
        }
        let late = set.base.max(1) < reader.0.acked_up_to_before();
        if late && high.map_or(false, |n| *n > i128::from(last)) {
            return false; // D1
        }
        // D7: the crate keeps all, the port no more than the cap.
        let mut trial = reader.clone();
        let call = ReaderCall::Ack { set: *set, last };
        trial.call(&call);
        trial.0.unsent_changes().len() <= self.cap
    }

    fn gaps_have_room(&self, reader: &OracleReader) -> bool {
        let floor = reader.0.acked_up_to_before().max(self.prefix_end + 1);
        let gaps = reader.0.pending_gap();
        gaps.iter().filter(|n| **n >= floor).count() < MOST_GAPS
    }

    fn allows_request(&self, sample: i64, set: &FragmentSet) -> bool {
        let members = set.members();
        let held = self.lengths.contains_key(&sample);
        set.count <= MOST_BITS
            && is_sample(sample) // D5
            && set.base >= 1 // D5
            && members.iter().all(|f| *f <= u64::from(MOST_FRAGMENTS)) // D7
            && (held || !members.is_empty()) // D4
            && (held || self.lengths.len() < MOST_FRAGMENTED) // D7
    }

    /// Keeps up with a call that the crate has taken.
    pub fn took(&mut self, call: &ReaderCall, reader: &OracleReader) {
        match call {
            ReaderCall::GapUpTo { end, .. } => self.prefix_end = self.prefix_end.max(*end),
            ReaderCall::Request { sample, set } => {
                let highest = set.members().last().map_or(0, |f| *f as u32);
                let length = self.lengths.entry(*sample).or_insert(0);
                *length = highest.max(*length);
            }
            ReaderCall::FragSent { .. } => {
                let held = reader.0.all_frags_requested();
                self.lengths
                    .retain(|sample, _| held.iter().any(|(s, _)| s == sample));
            }
            _ => {}
        }
    }
}

/// The crate shows neither its sent frontier nor its limits, so the rule for a
/// full store keeps what it was told.
pub struct WriterRange {
    kind: Kind,
    limits: Limits,
    sent: i64,
    acked: i64,
    present: bool,
}

impl WriterRange {
    pub fn new(kind: Kind, limits: Limits) -> Self {
        WriterRange {
            kind,
            limits,
            sent: 0,
            acked: 1,
            present: false,
        }
    }

    pub fn allows(&self, call: &WriterCall, writer: &OracleWriter) -> bool {
        let last = writer.last();
        match call {
            WriterCall::Admit {
                opted_in, bytes, ..
            } => {
                let held = (last + 1 - writer.first()) as u64;
                bytes.len() as u64 <= self.limits.slot_bytes
                    && (held < self.limits.slots || self.never_fills(*opted_in, last))
            }
            // D6; a frontier below 1 is raised in both.
            WriterCall::SetAcked { frontier } => frontier.map_or(true, |f| f <= last + 1),
            WriterCall::SetSent { frontier } => *frontier <= last,
            WriterCall::Evict { before } => *before <= last + 1,
        }
    }

    /// With S samples held: the write trims, or would block, before it could
    /// meet D7.
    fn never_fills(&self, opted_in: bool, last: i64) -> bool {
        let kind = self.kind;
        if kind.builtin {
            return false;
        }
        let may_block = kind.reliable || opted_in;
        if !may_block || (kind.reliable && kind.volatile && !self.present) {
            return true;
        }
        let backlog_full = (last - self.sent) as u64 >= self.limits.backlog.max(1);
        let window = self.limits.window.max(1) as i64;
        let window_full = kind.reliable && self.present && last - self.acked + 1 >= window;
        backlog_full || window_full
    }

    pub fn took(&mut self, call: &WriterCall) {
        match call {
            WriterCall::SetAcked { frontier } => {
                self.acked = frontier.map_or(self.acked, |f| f.max(1));
                self.present = frontier.is_some();
            }
            WriterCall::SetSent { frontier } => self.sent = self.sent.max(*frontier),
            _ => {}
        }
    }
}
