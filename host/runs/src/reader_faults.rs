//! A reader with one fault.

use model::{Reader, Refusal};

use crate::{
    calls::{ReaderCall, Reply},
    faults::CaughtBy,
    subject::{ReaderSubject, Subjects},
};

#[derive(Clone, Copy, PartialEq, Eq, Debug)]
pub enum ReaderFault {
    BaseOneUp,
    BaseTakenAsLastAcknowledged,
    LateNotCutAtAcked,
    LateNotCutAtLast,
    LateMovesBack,
    LateForgotten,
    OldUnsentNotCutAtLast,
    CapKeepsLargest,
    LeftOutInvented,
    IgnoredStillMoves,
    BitsReversed,
    CountNotHeeded,
    OneBitTooMany,
    NewestDroppedAtCap,
    RemovesOneMore,
    MarkSentForgotten,
    GapAtBaseDropped,
    PrefixReplaced,
    AckDropsFragments,
    FragmentSentDropsSample,
    LargestSampleFirst,
    NextFragmentAfter,
    RequestReplaces,
}

use CaughtBy::{Crate, ModelOnly};
use ReaderFault::*;

pub const READER_FAULTS: [(ReaderFault, CaughtBy); 23] = [
    (BaseOneUp, Crate),
    (BaseTakenAsLastAcknowledged, Crate),
    (LateNotCutAtAcked, Crate),
    (LateNotCutAtLast, ModelOnly),
    (LateMovesBack, Crate),
    (LateForgotten, Crate),
    (OldUnsentNotCutAtLast, Crate),
    (CapKeepsLargest, ModelOnly),
    (LeftOutInvented, ModelOnly),
    (IgnoredStillMoves, Crate),
    (BitsReversed, Crate),
    (CountNotHeeded, Crate),
    (OneBitTooMany, ModelOnly),
    (NewestDroppedAtCap, Crate),
    (RemovesOneMore, Crate),
    (MarkSentForgotten, Crate),
    (GapAtBaseDropped, Crate),
    (PrefixReplaced, Crate),
    (AckDropsFragments, Crate),
    (FragmentSentDropsSample, Crate),
    (LargestSampleFirst, Crate),
    (NextFragmentAfter, Crate),
    (RequestReplaces, Crate),
];

pub struct FaultyReader<S> {
    pub sound: S,
    pub record: Reader,
    pub fault: Option<ReaderFault>,
}

impl<S: Subjects> FaultyReader<S> {
    /// The sound subject as the fault has left it.
    fn soundly(&self) -> S::Reader {
        self.sound.reader(&self.record)
    }

    /// The call as the fault hears it.
    fn heard(&self, call: &ReaderCall) -> ReaderCall {
        let mut heard = call.clone();
        match (self.fault, &mut heard) {
            (Some(BaseOneUp), ReaderCall::Ack { set, .. }) => set.base = set.base.saturating_add(1),
            (Some(BitsReversed), ReaderCall::Ack { set, .. }) => {
                set.words.iter_mut().for_each(|w| *w = w.reverse_bits())
            }
            (Some(CountNotHeeded), ReaderCall::Ack { set, .. }) if set.count < 256 => {
                set.count = 256
            }
            (Some(OneBitTooMany), ReaderCall::Ack { set, .. }) if set.count == 257 => {
                set.count = 256
            }
            (Some(RemovesOneMore), ReaderCall::RemoveBefore { number }) => {
                *number = number.saturating_add(1)
            }
            (Some(MarkSentForgotten), ReaderCall::MarkSent { number }) => *number = 0,
            _ => {}
        }
        heard
    }

    /// What the fault makes of the state and the reply afterwards.
    fn spoil(&mut self, call: &ReaderCall, before: Reader, reply: &mut Reply) {
        match call {
            ReaderCall::Ack { .. } => {
                self.spoil_ack(call, before.clone(), reply);
                self.spoil_late(call, before, reply);
            }
            ReaderCall::Notify { number } if reply.answer == 0 => {
                if self.fault == Some(NewestDroppedAtCap) {
                    let all = before.unsent.into_iter().chain([*number]);
                    let all: std::collections::BTreeSet<i64> = all.collect();
                    self.record.unsent = all.into_iter().take(before.cap).collect();
                }
            }
            ReaderCall::GapUpTo { end, .. } if reply.answer == 0 => {
                if self.fault == Some(PrefixReplaced) {
                    self.record.prefix_end = *end;
                }
            }
            ReaderCall::Request { sample, set } if reply.answer == 0 => {
                if self.fault == Some(RequestReplaces) && !set.members().is_empty() {
                    let asked = set.members().into_iter().map(|f| f as u32).collect();
                    self.record.frags.insert(*sample, asked);
                }
            }
            ReaderCall::FragSent { sample, .. } => {
                if self.fault == Some(FragmentSentDropsSample) {
                    self.record.frags.remove(sample);
                }
            }
            _ => {}
        }
    }

    fn spoil_ack(&mut self, call: &ReaderCall, before: Reader, reply: &mut Reply) {
        let (set, last) = match call {
            ReaderCall::Ack { set, last } => (set, *last),
            _ => return,
        };
        let accepted = reply.answer == 0;
        let base = set.base.max(1);
        let record = &mut self.record;
        match self.fault {
            Some(BaseTakenAsLastAcknowledged) if accepted && base >= before.acked => {
                record.acked = base.saturating_add(1);
                record.gaps.retain(|n| *n > base);
            }
            Some(OldUnsentNotCutAtLast) if accepted && base >= before.acked => {
                let kept = before.unsent.into_iter().filter(|n| *n > last);
                let room = record.cap - record.unsent.len();
                record.unsent.extend(kept.take(room));
            }
            Some(CapKeepsLargest) if reply.left_out > 0 => {
                let mut whole = before;
                whole.cap = model::numbers::MOST_UNSENT;
                whole.call(call);
                record.unsent = whole.unsent.into_iter().rev().take(record.cap).collect();
            }
            Some(LeftOutInvented) if reply.left_out > 0 => reply.left_out += 1,
            Some(IgnoredStillMoves) if reply.answer == Refusal::BaseAboveLast.number() => {
                let moved = before.acked.max(last.saturating_add(1));
                record.acked = moved;
                record.gaps.retain(|n| *n >= moved);
            }
            Some(GapAtBaseDropped) if accepted && base >= before.acked => {
                record.gaps.remove(&base);
            }
            Some(AckDropsFragments) if accepted => {
                record.frags.retain(|sample, _| *sample >= base);
            }
            _ => {}
        }
    }

    fn spoil_late(&mut self, call: &ReaderCall, before: Reader, reply: &Reply) {
        let (set, last) = match call {
            ReaderCall::Ack { set, last } => (set, *last),
            _ => return,
        };
        if reply.answer != 0 || set.base.max(1) >= before.acked {
            return;
        }
        let members = set.members().into_iter();
        let numbers: Vec<i64> = members.filter_map(|n| i64::try_from(n).ok()).collect();
        let numbers = numbers
            .into_iter()
            .filter(|n| model::numbers::is_sample(*n));
        let record = &mut self.record;
        let room = record.cap - record.unsent.len();
        match self.fault {
            Some(LateNotCutAtAcked) => {
                let wrong = numbers.filter(|n| *n < before.acked && *n <= last);
                record.unsent.extend(wrong.take(room));
            }
            Some(LateNotCutAtLast) => {
                let wrong = numbers.filter(|n| *n >= before.acked && *n > last);
                record.unsent.extend(wrong.take(room));
            }
            Some(LateMovesBack) => record.acked = set.base.max(1),
            Some(LateForgotten) => record.unsent = before.unsent,
            _ => {}
        }
    }
}

impl<S: Subjects> ReaderSubject for FaultyReader<S> {
    fn call(&mut self, call: &ReaderCall) -> Reply {
        let before = self.record.clone();
        let heard = self.heard(call);
        let mut reader = self.soundly();
        let mut reply = reader.call(&heard);
        self.record = reader.record();
        self.spoil(call, before, &mut reply);
        reply
    }

    fn record(&self) -> Reader {
        self.record.clone()
    }

    fn next_unsent(&self, from: i64) -> Option<i64> {
        self.soundly().next_unsent(from)
    }

    fn next_pending_gap(&self, from: i64) -> Option<i64> {
        self.soundly().next_pending_gap(from)
    }

    fn next_fragment(&self, from: u32) -> Option<(i64, u32)> {
        match self.fault {
            Some(LargestSampleFirst) => {
                let (sample, entry) = self.record.frags.iter().next_back()?;
                let fragment = entry.range(from..).next()?;
                Some((*sample, *fragment))
            }
            Some(NextFragmentAfter) => self.soundly().next_fragment(from.saturating_add(1)),
            _ => self.soundly().next_fragment(from),
        }
    }

    fn any_requested(&self) -> bool {
        self.soundly().any_requested()
    }
}
