//! When a record counts as coherent, part by part: a call that is lent only
//! some parts can test only these.

use crate::{
    flow::Flow, list::ReaderList, numbers::*, reader::Reader, store::SendBuffer, writer::Writer,
};

impl Reader {
    pub fn is_coherent(&self) -> bool {
        self.head_fits() && self.unsent_fits() && self.gaps_fit() && self.frags_fit()
    }

    pub fn head_fits(&self) -> bool {
        self.acked >= 0
            && (1..=MOST_UNSENT).contains(&self.cap)
            && (0..=LAST_SAMPLE).contains(&self.prefix_end)
    }

    pub fn unsent_fits(&self) -> bool {
        self.unsent.len() <= self.cap && self.unsent.iter().all(|n| is_sample(*n))
    }

    pub fn gaps_fit(&self) -> bool {
        let stays = |n: i64| is_sample(n) && n > self.prefix_end && n >= self.acked;
        self.gaps.len() <= MOST_GAPS && self.gaps.iter().all(|n| stays(*n))
    }

    pub fn frags_fit(&self) -> bool {
        let holds = |f: u32| (1..=MOST_FRAGMENTS).contains(&f);
        self.frags.len() <= MOST_FRAGMENTED
            && self.frags.iter().all(|(sample, entry)| {
                is_sample(*sample) && !entry.is_empty() && entry.iter().all(|f| holds(*f))
            })
    }
}

impl Flow {
    pub fn is_coherent(&self) -> bool {
        let last = i128::from(self.last);
        let held = last + 1 - i128::from(self.first);
        is_last(self.last)
            && self.first >= 1
            && held >= 0
            && held <= i128::from(self.limits.slots)
            && self.sent >= 0
            && self.sent <= self.last
            && self.acked >= 1
            && i128::from(self.acked) <= last + 1
            && self.limits.is_allowed()
            && self.limits.none_is_0()
    }
}

impl SendBuffer {
    /// The flow record, and exactly the retained samples, each of a length
    /// that fits a slot.
    pub fn is_coherent(&self) -> bool {
        let flow = &self.flow;
        flow.is_coherent()
            && self.samples.len() as i64 == flow.last + 1 - flow.first
            && self.samples.iter().all(|(number, bytes)| {
                (flow.first..=flow.last).contains(number)
                    && bytes.len() as u64 <= flow.limits.slot_bytes
            })
    }
}

impl ReaderList {
    /// Nothing is asked of the heads' acked: a negative one counts as 0.
    pub fn is_coherent(&self) -> bool {
        let ids: std::collections::BTreeSet<u64> = self.heads.iter().map(|h| h.id).collect();
        self.heads.len() <= self.room
            && ids.len() == self.heads.len()
            && self.heads.iter().all(|h| h.id >= 1)
    }
}

impl Writer {
    /// All parts, and each head with the record of the same reader.
    pub fn is_coherent(&self) -> bool {
        self.buffer.is_coherent()
            && self.list.is_coherent()
            && self.records.len() == self.list.heads.len()
            && self.list.heads.iter().all(|head| {
                let record = self.records.get(&head.id);
                record.map_or(false, |r| r.is_coherent() && r.acked == head.acked)
            })
    }
}
