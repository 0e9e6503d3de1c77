//! The crate, called by the same calls and seen in the same sights.

use model::{Kind, Limits};

use crate::{
    calls::{ReaderCall, Reply, Way, WriterCall},
    sight::{asked_numbers, fetched_numbers, Probe, ReaderSight, WriterSight},
};

#[derive(Clone)]
pub struct OracleReader(pub oracle::Reader);

impl OracleReader {
    /// The crate's functions give no answers here; the state tells all.
    pub fn call(&mut self, call: &ReaderCall) {
        let crate_reader = &mut self.0;
        match call {
            ReaderCall::Ack { set, last } => {
                crate_reader.handle_ack_nack(set.base, set.count, set.words, *last)
            }
            ReaderCall::Notify { number } => crate_reader.notify_new_cache_change(*number),
            ReaderCall::MarkSent { number } => crate_reader.mark_change_sent(*number),
            ReaderCall::RemoveBefore { number } => {
                crate_reader.remove_from_unsent_set_all_before(*number)
            }
            ReaderCall::Gap { number, .. } => crate_reader.insert_pending_gap(*number),
            ReaderCall::GapUpTo { end, .. } => crate_reader.set_pending_gap_up_to(*end),
            ReaderCall::Request { sample, set } => {
                crate_reader.mark_frags_requested(*sample, set.base, set.count, set.words)
            }
            ReaderCall::FragSent { sample, fragment } => {
                crate_reader.mark_frag_sent(*sample, *fragment)
            }
        }
    }

    pub fn sight(&self, probe: Probe) -> ReaderSight {
        let crate_reader = &self.0;
        let acked = crate_reader.acked_up_to_before();
        let unsent = crate_reader.unsent_changes();
        let mut gaps = crate_reader.pending_gap();
        gaps.retain(|n| *n >= acked);
        let shown = crate_reader.frags_requested();
        ReaderSight {
            acked,
            first_unsent: crate_reader.first_unsent_change(),
            next_unsent: unsent.iter().copied().find(|n| *n >= probe.number),
            next_gap: gaps.iter().copied().find(|n| *n >= probe.number),
            unsent,
            gaps,
            frags: crate_reader.all_frags_requested(),
            next_fragment: shown.first().copied(),
            next_fragment_from: shown.iter().copied().find(|(_, f)| *f >= probe.fragment),
            any_requested: crate_reader.repair_frags_requested(),
        }
    }
}

pub struct OracleWriter(oracle::Writer);

impl OracleWriter {
    /// The crate has no slots: those two limits are the port's own.
    pub fn new(kind: Kind, limits: Limits) -> Self {
        let kind = oracle::Kind {
            reliable: kind.reliable,
            builtin: kind.builtin,
            volatile: kind.volatile,
        };
        let limits = oracle::Limits {
            window: limits.window as usize,
            backlog: limits.backlog as usize,
            retain: limits.retain as usize,
        };
        OracleWriter(oracle::Writer::new(kind, limits))
    }

    pub fn call(&mut self, call: &WriterCall) -> Reply {
        let wake = match call {
            WriterCall::Admit {
                opted_in,
                bytes,
                way,
            } => return self.admit(*opted_in, bytes, *way),
            WriterCall::SetAcked { frontier } => self.0.set_acked_frontier(*frontier),
            WriterCall::SetSent { frontier } => self.0.set_sent_frontier(*frontier),
            WriterCall::Evict { before } => self.0.remove_changes_before(*before),
        };
        Reply {
            wake,
            ..Reply::default()
        }
    }

    fn admit(&self, opted_in: bool, bytes: &[u8], way: Way) -> Reply {
        let admitted = match way {
            Way::Blocking => self.0.admit_blocking(opted_in, bytes),
            Way::Try => self.0.try_admit(opted_in, bytes),
        };
        match admitted {
            Some(number) => Reply {
                number,
                ..Reply::default()
            },
            None => Reply::refused(6),
        }
    }

    pub fn last(&self) -> i64 {
        self.0.last_change_sequence_number()
    }

    pub fn first(&self) -> i64 {
        self.0.first_change_sequence_number()
    }

    pub fn sight(&self, probe: Probe) -> WriterSight {
        let (first, last) = (self.first(), self.last());
        let acked_through = |n| {
            let acked = self.0.is_acked_through(n);
            // The crate's other way to ask must agree with it.
            assert_eq!(acked, self.0.wait_for_acked_through(n));
            acked
        };
        WriterSight {
            last,
            first,
            bytes: fetched_numbers(first, last, probe)
                .map(|n| self.0.get_by_sn(n).map(|bytes| bytes.to_vec()))
                .collect(),
            acked_through: asked_numbers(last, probe).map(acked_through).collect(),
        }
    }
}
