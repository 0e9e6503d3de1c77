//! Random coherent records and any calls at all, inside the compared range or
//! not: for runs against the model.

use model::{numbers::*, Flow, FragmentSet, Kind, Limits, NumberSet, Reader, SendBuffer};

use crate::{
    calls::{ReaderCall, Way, WriterCall},
    prng::Prng,
};

/// Numbers close to a centre, with the ends of every range mixed in.
#[derive(Clone, Copy)]
pub struct Near(pub i64);

impl Near {
    pub fn new(prng: &mut Prng) -> Self {
        Near(prng.pick(&[0, 0, 0, 1 << 32, LAST_SAMPLE]))
    }

    pub fn number(self, prng: &mut Prng) -> i64 {
        match prng.below(12) {
            0 => prng.pick(&[i64::MIN, -1, 0, 1, LAST_SAMPLE, i64::MAX]),
            // Past a full gap set.
            1 => self.0.saturating_add(prng.between(250, 600)),
            _ => self.0.saturating_add(prng.between(-6, 12)),
        }
    }

    pub fn sample(self, prng: &mut Prng) -> i64 {
        self.number(prng).clamp(1, LAST_SAMPLE)
    }
}

pub fn fragment(prng: &mut Prng) -> u32 {
    match prng.below(10) {
        0 => prng.pick(&[0, 64, 65, 4095, 4096, 4097, u32::MAX]),
        1 => prng.below(4100) as u32,
        _ => prng.below(10) as u32,
    }
}

pub fn reader(prng: &mut Prng, near: Near) -> Reader {
    let cap = prng.pick(&[1, 2, 3, 8, 1024]);
    let mut reader = Reader::new(cap).expect("an allowed cap");
    reader.acked = near.number(prng).max(0);
    reader.prefix_end = match prng.below(3) {
        0 => near.number(prng).clamp(0, LAST_SAMPLE),
        _ => 0,
    };
    for _ in 0..prng.below(2 * cap.min(12) as u64) {
        let number = near.sample(prng);
        if reader.unsent.len() < cap {
            reader.unsent.insert(number);
        }
    }
    add_gaps(prng, near, &mut reader);
    for _ in 0..prng.pick(&[0, 2, 40]) {
        if reader.frags.len() < MOST_FRAGMENTED {
            let f = fragment(prng).clamp(1, MOST_FRAGMENTS);
            reader.frags.entry(near.sample(prng)).or_default().insert(f);
        }
    }
    assert!(reader.is_coherent());
    reader
}

fn add_gaps(prng: &mut Prng, near: Near, reader: &mut Reader) {
    let floor = reader.acked.max(reader.prefix_end + 1).max(1);
    for _ in 0..prng.below(4) {
        let number = near.sample(prng);
        if number >= floor {
            reader.gaps.insert(number);
        }
    }
    // Now and then the gap set is full, or has one place left.
    let full = MOST_GAPS as i64 - prng.between(0, 1);
    if prng.one_in(4) && floor <= LAST_SAMPLE - full {
        reader.gaps = (floor..floor + full).collect();
    }
}

fn words(prng: &mut Prng) -> [u32; 8] {
    let mut words = [0; 8];
    let thin = prng.below(4);
    for word in words.iter_mut() {
        *word = (0..thin).fold(u32::MAX, |w, _| w & prng.next() as u32);
    }
    words
}

fn count(prng: &mut Prng) -> u32 {
    match prng.below(8) {
        0 => prng.pick(&[255, 256, 257, u32::MAX]),
        1 => prng.below(256) as u32,
        _ => prng.below(9) as u32,
    }
}

pub fn number_set(prng: &mut Prng, near: Near) -> NumberSet {
    NumberSet {
        base: near.number(prng),
        count: count(prng),
        words: words(prng),
    }
}

pub fn fragment_set(prng: &mut Prng) -> FragmentSet {
    FragmentSet {
        base: fragment(prng),
        count: count(prng),
        words: words(prng),
    }
}

pub fn reader_call(prng: &mut Prng, near: Near) -> ReaderCall {
    let number = near.number(prng);
    let last = near.number(prng);
    match prng.below(12) {
        0..=3 => ReaderCall::Ack {
            set: number_set(prng, near),
            last,
        },
        4 => ReaderCall::Notify { number },
        5 => ReaderCall::MarkSent { number },
        6 => ReaderCall::RemoveBefore { number },
        7 => gap(prng, near),
        8 => ReaderCall::GapUpTo { end: number, last },
        9..=10 => ReaderCall::Request {
            sample: number,
            set: fragment_set(prng),
        },
        _ => ReaderCall::FragSent {
            sample: number,
            fragment: fragment(prng),
        },
    }
}

/// Often past a full gap set, or refusal 9 would hardly be met.
fn gap(prng: &mut Prng, near: Near) -> ReaderCall {
    let (mut number, mut last) = (near.number(prng), near.number(prng));
    if prng.coin() {
        number = near.0.saturating_add(prng.between(250, 600));
        last = number.saturating_add(prng.between(-1, 9));
    }
    ReaderCall::Gap { number, last }
}

pub fn send_buffer(prng: &mut Prng, near: Near) -> SendBuffer {
    let slots = prng.pick(&[1, 2, 4, 256]);
    let limits = Limits {
        window: prng.pick(&[1, 2, 5, MOST_LIMIT]),
        backlog: prng.pick(&[1, 2, 5, MOST_LIMIT]),
        retain: 1 + prng.below(slots),
        slots,
        slot_bytes: prng.pick(&[1, 4, 16]),
    };
    let kind = Kind {
        reliable: prng.coin(),
        builtin: prng.one_in(4),
        volatile: prng.coin(),
    };
    let mut flow = Flow::new(kind, limits).expect("allowed limits");
    flow.last = near.number(prng).clamp(0, LAST_SAMPLE);
    let held = prng.below(slots.min(9) + 1) as i64;
    flow.first = (flow.last + 1 - held).max(1);
    flow.sent = (flow.last - prng.between(0, 6)).max(0);
    flow.acked = (flow.last + 1 - prng.between(0, 6)).max(1);
    flow.present = prng.coin();
    let length = prng.below(limits.slot_bytes + 1) as usize;
    let bytes = |n: i64| vec![n as u8; length];
    let samples = (flow.first..=flow.last).map(|n| (n, bytes(n))).collect();
    let buffer = SendBuffer { flow, samples };
    assert!(buffer.is_coherent());
    buffer
}

pub fn writer_call(prng: &mut Prng, near: Near) -> WriterCall {
    match prng.below(9) {
        0..=3 => WriterCall::Admit {
            opted_in: prng.coin(),
            bytes: vec![prng.next() as u8; prng.below(18) as usize],
            way: Way::Try,
        },
        4 => WriterCall::SetAcked { frontier: None },
        5..=6 => WriterCall::SetAcked {
            frontier: Some(near.number(prng)),
        },
        7 => WriterCall::SetSent {
            frontier: near.number(prng),
        },
        _ => WriterCall::Evict {
            before: near.number(prng),
        },
    }
}
