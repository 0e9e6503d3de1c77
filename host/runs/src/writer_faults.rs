//! A send buffer with one fault.

use std::collections::BTreeMap;

use model::SendBuffer;

use crate::{
    calls::{Reply, WriterCall},
    faults::CaughtBy,
    subject::{Subjects, WriterSubject},
};

#[derive(Clone, Copy, PartialEq, Eq, Debug)]
pub enum WriterFault {
    WakesAlways,
    WakesNever,
    NoWakeWhenReadersGo,
    NoWakeWhenReadersAppear,
    WindowAsLastLessAcked,
    BacklogOneMore,
    RetainsOneMore,
    TrimsBesideReaders,
    TransientTrims,
    OptInNotHeeded,
    FrontierNeverLowers,
    FrontierNotRaisedTo1,
    AckedThroughAtFrontier,
    EvictsOneMore,
    EvictedStillShown,
    BytesCut,
    SentMayFall,
    SlotCheckedLate,
    EvictPastTheLast,
}

use CaughtBy::{Crate, ModelOnly};
use WriterFault::*;

pub const WRITER_FAULTS: [(WriterFault, CaughtBy); 19] = [
    (WakesAlways, Crate),
    (WakesNever, Crate),
    (NoWakeWhenReadersGo, Crate),
    (NoWakeWhenReadersAppear, Crate),
    (WindowAsLastLessAcked, Crate),
    (BacklogOneMore, Crate),
    (RetainsOneMore, Crate),
    (TrimsBesideReaders, Crate),
    (TransientTrims, Crate),
    (OptInNotHeeded, Crate),
    (FrontierNeverLowers, Crate),
    (FrontierNotRaisedTo1, Crate),
    (AckedThroughAtFrontier, Crate),
    (EvictsOneMore, Crate),
    (EvictedStillShown, Crate),
    (BytesCut, Crate),
    (SentMayFall, Crate),
    (SlotCheckedLate, ModelOnly),
    (EvictPastTheLast, ModelOnly),
];

pub struct FaultyWriter<S> {
    pub sound: S,
    pub record: SendBuffer,
    /// Samples no longer retained, for the fault that still shows them.
    pub gone: BTreeMap<i64, Vec<u8>>,
    /// The frontier as it was told, for the fault that takes it so.
    pub told: i64,
    pub fault: Option<WriterFault>,
}

impl<S: Subjects> FaultyWriter<S> {
    fn soundly(&mut self, call: &WriterCall) -> Reply {
        let mut writer = self.sound.writer(&self.record);
        let reply = writer.call(call);
        self.record = writer.record();
        reply
    }

    /// The call on a record with other limits, which are then put back.
    fn with_limits(&mut self, call: &WriterCall) -> Reply {
        let (kind, limits) = (self.record.flow.kind, self.record.flow.limits);
        let present = self.record.flow.present;
        let flow = &mut self.record.flow;
        match self.fault {
            Some(WindowAsLastLessAcked) => flow.limits.window += 1,
            Some(BacklogOneMore) => flow.limits.backlog += 1,
            Some(RetainsOneMore) => flow.limits.retain = (limits.retain + 1).min(limits.slots),
            Some(TransientTrims) => flow.kind.volatile = true,
            _ => {}
        }
        let reply = self.soundly(call);
        self.record.flow.kind = kind;
        self.record.flow.limits = limits;
        if self.fault == Some(TrimsBesideReaders) && present && reply.answer == 0 {
            let retain = limits.retain as i64;
            let _ = self.record.evict_before(reply.number + 1 - retain);
        }
        reply
    }

    fn admit(&mut self, call: &WriterCall, opted_in: bool, bytes: &[u8]) -> Reply {
        let way = crate::calls::Way::Try;
        match self.fault {
            Some(OptInNotHeeded) => self.soundly(&WriterCall::Admit {
                opted_in: false,
                bytes: bytes.to_vec(),
                way,
            }),
            Some(BytesCut) if bytes.len() > 1 => self.soundly(&WriterCall::Admit {
                opted_in,
                bytes: bytes[..bytes.len() - 1].to_vec(),
                way,
            }),
            Some(SlotCheckedLate) => {
                // Would-block before payload-too-long: the wrong order.
                let room = self.record.flow.has_room(opted_in);
                match room {
                    true => self.soundly(call),
                    false => Reply::refused(6),
                }
            }
            _ => self.with_limits(call),
        }
    }

    fn set_acked(&mut self, call: &WriterCall, frontier: Option<i64>) -> Reply {
        let (acked, present) = (self.record.flow.acked, self.record.flow.present);
        let mut reply = self.soundly(call);
        if let (0, Some(frontier)) = (reply.answer, frontier) {
            self.told = frontier;
        }
        let flow = &mut self.record.flow;
        match self.fault {
            Some(FrontierNeverLowers) => flow.acked = flow.acked.max(acked),
            Some(NoWakeWhenReadersGo) if frontier.is_none() => reply.wake = false,
            Some(NoWakeWhenReadersAppear) if !present => {
                reply.wake &= frontier.map_or(false, |f| f > acked)
            }
            _ => {}
        }
        reply
    }

    fn set_sent(&mut self, call: &WriterCall, frontier: i64) -> Reply {
        let reply = self.soundly(call);
        if self.fault == Some(SentMayFall) && reply.answer == 0 {
            self.record.flow.sent = frontier.max(0);
        }
        reply
    }

    fn evict(&mut self, call: &WriterCall, before: i64) -> Reply {
        let next = self.record.flow.last.saturating_add(1);
        match self.fault {
            Some(EvictsOneMore) if before < next => self.soundly(&WriterCall::Evict {
                before: before.saturating_add(1),
            }),
            Some(EvictPastTheLast) if before > next => {
                self.soundly(&WriterCall::Evict { before: next })
            }
            _ => self.soundly(call),
        }
    }
}

impl<S: Subjects> WriterSubject for FaultyWriter<S> {
    fn call(&mut self, call: &WriterCall) -> Reply {
        self.gone.extend(self.record.samples.clone());
        let mut reply = match call {
            WriterCall::Admit {
                opted_in, bytes, ..
            } => self.admit(call, *opted_in, bytes),
            WriterCall::SetAcked { frontier } => self.set_acked(call, *frontier),
            WriterCall::SetSent { frontier } => self.set_sent(call, *frontier),
            WriterCall::Evict { before } => self.evict(call, *before),
        };
        let told = !matches!(call, WriterCall::Admit { .. } | WriterCall::Evict { .. });
        match self.fault {
            Some(WakesAlways) if told && reply.answer == 0 => reply.wake = true,
            Some(WakesNever) => reply.wake = false,
            _ => {}
        }
        reply
    }

    fn record(&self) -> SendBuffer {
        self.record.clone()
    }

    fn fetch(&self, number: i64) -> Option<Vec<u8>> {
        let held = self.sound.writer(&self.record).fetch(number);
        match self.fault {
            Some(EvictedStillShown) => held.or_else(|| self.gone.get(&number).cloned()),
            _ => held,
        }
    }

    fn acked_through(&self, number: i64) -> bool {
        let flow = &self.record.flow;
        match self.fault {
            Some(AckedThroughAtFrontier) => !flow.present || flow.acked >= number,
            Some(FrontierNotRaisedTo1) => !flow.present || self.told > number,
            _ => self.sound.writer(&self.record).acked_through(number),
        }
    }
}
