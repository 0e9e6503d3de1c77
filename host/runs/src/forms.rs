//! The model's records as the library is lent them, proxies and rooms, and back.

use model::{
    raw::{RawReader, RawStore},
    Flow, FragmentSet, Head, Kind, Limits, NumberSet, Reader, ReaderList, SendBuffer,
};
use sintemuno::ffi::{
    self, FragmentNumber, FragmentNumberSet, ReaderHead, ReaderProxy, SequenceNumber,
    SequenceNumberSet,
};

pub fn number_set(set: &NumberSet) -> SequenceNumberSet {
    SequenceNumberSet {
        base: SequenceNumber(set.base),
        count: set.count,
        words: set.words,
    }
}

pub fn fragment_set(set: &FragmentSet) -> FragmentNumberSet {
    FragmentNumberSet {
        base: FragmentNumber(set.base),
        count: set.count,
        words: set.words,
    }
}

/// A reader's proxy and rooms.
#[derive(Clone, PartialEq, Eq, Debug)]
pub struct LentReader {
    pub proxy: ReaderProxy,
    pub unsent: Vec<u64>,
    pub gaps: Vec<u64>,
    pub samples: Vec<u64>,
    pub words: Vec<u64>,
}

impl LentReader {
    pub fn form(reader: &Reader) -> Self {
        let raw = RawReader::form(reader);
        LentReader {
            proxy: ReaderProxy {
                all_acked_before: SequenceNumber(raw.acked),
                unsent_cap: raw.cap as usize,
                unsent_count: raw.unsent_count as usize,
                gap_prefix_end: SequenceNumber(raw.prefix_end),
                gap_count: raw.gap_count as usize,
                frag_count: raw.frag_count as usize,
            },
            unsent: raw.unsent,
            gaps: raw.gaps,
            samples: raw.samples,
            words: raw.bits,
        }
    }

    /// `None` if it isn't coherent.
    pub fn view(&self) -> Option<Reader> {
        let raw = RawReader {
            acked: self.proxy.all_acked_before.0,
            cap: self.proxy.unsent_cap as u64,
            prefix_end: self.proxy.gap_prefix_end.0,
            unsent_count: self.proxy.unsent_count as u64,
            gap_count: self.proxy.gap_count as u64,
            frag_count: self.proxy.frag_count as u64,
            unsent: self.unsent.clone(),
            gaps: self.gaps.clone(),
            samples: self.samples.clone(),
            bits: self.words.clone(),
        };
        raw.view()
    }
}

pub fn kind(kind: Kind) -> ffi::Kind {
    ffi::Kind {
        reliable: kind.reliable,
        builtin: kind.builtin,
        volatile: kind.volatile,
    }
}

pub fn limits(limits: Limits) -> ffi::Limits {
    ffi::Limits {
        window: limits.window,
        backlog: limits.backlog,
        retain: limits.retain,
        slots: limits.slots,
        slot_bytes: limits.slot_bytes,
    }
}

pub fn flow(flow: &Flow) -> ffi::WriterSendBuffer {
    ffi::WriterSendBuffer {
        last: SequenceNumber(flow.last),
        first: SequenceNumber(flow.first),
        sent: SequenceNumber(flow.sent),
        acked: SequenceNumber(flow.acked),
        present: flow.present,
        kind: kind(flow.kind),
        limits: limits(flow.limits),
    }
}

pub fn flow_view(flow: &ffi::WriterSendBuffer) -> Flow {
    Flow {
        last: flow.last.0,
        first: flow.first.0,
        sent: flow.sent.0,
        acked: flow.acked.0,
        present: flow.present,
        kind: Kind {
            reliable: flow.kind.reliable,
            builtin: flow.kind.builtin,
            volatile: flow.kind.volatile,
        },
        limits: Limits {
            window: flow.limits.window,
            backlog: flow.limits.backlog,
            retain: flow.limits.retain,
            slots: flow.limits.slots,
            slot_bytes: flow.limits.slot_bytes,
        },
    }
}

/// A flow record with its store.
#[derive(Clone, PartialEq, Eq, Debug)]
pub struct LentWriter {
    pub flow: ffi::WriterSendBuffer,
    pub store: Vec<u8>,
    pub lens: Vec<u64>,
}

/// What lies in room that holds no sample: anything; not zeros, so that a
/// byte shown by mistake is seen.
const LEFT_OVER: u8 = 0xA5;

impl LentWriter {
    pub fn form(buffer: &SendBuffer) -> Self {
        let limits = buffer.flow.limits;
        let (slots, width) = (limits.slots as usize, limits.slot_bytes as usize);
        let mut store = vec![LEFT_OVER; slots * width];
        let mut lens = vec![u64::from(LEFT_OVER); slots];
        for (number, bytes) in &buffer.samples {
            let slot = (*number - 1) as usize % slots;
            store[slot * width..slot * width + bytes.len()].copy_from_slice(bytes);
            lens[slot] = bytes.len() as u64;
        }
        LentWriter {
            flow: flow(&buffer.flow),
            store,
            lens,
        }
    }

    /// `None` if it isn't coherent.
    pub fn view(&self) -> Option<SendBuffer> {
        let store = RawStore {
            bytes: self.store.clone(),
            lengths: self.lens.clone(),
        };
        store.view(&flow_view(&self.flow))
    }
}

pub fn head(head: &Head) -> ReaderHead {
    ReaderHead {
        id: head.id,
        reliable: head.reliable,
        acked: SequenceNumber(head.acked),
    }
}

pub fn head_view(head: &ReaderHead) -> Head {
    Head {
        id: head.id,
        reliable: head.reliable,
        acked: head.acked.0,
    }
}

/// The readers in the first slots.
pub fn slots(list: &ReaderList) -> Vec<ReaderHead> {
    let mut slots: Vec<ReaderHead> = list.heads.iter().map(head).collect();
    slots.resize(list.room, ReaderHead::default());
    slots
}

/// The readers by their ids: the order of the slots has no meaning.
pub fn slots_view(slots: &[ReaderHead]) -> ReaderList {
    let there = slots.iter().filter(|h| h.id != 0);
    let mut heads: Vec<Head> = there.map(head_view).collect();
    heads.sort_by_key(|h| h.id);
    ReaderList {
        room: slots.len(),
        heads,
    }
}
