//! Random reader lists, calls on them, and caps and limits for creation.

use model::{
    numbers::{MOST_LIMIT, MOST_READERS, MOST_SLOTS, MOST_SLOT_BYTES},
    Head, Kind, Limits, ReaderList,
};

use crate::{calls::ListCall, draw_any::Near, prng::Prng};

pub fn id(prng: &mut Prng) -> u64 {
    match prng.below(12) {
        0 => prng.pick(&[0, 65, u64::MAX >> 1, u64::MAX]),
        1..=4 => prng.below(70),
        _ => prng.below(6),
    }
}

pub fn list(prng: &mut Prng, near: Near) -> ReaderList {
    let mut list = ReaderList::new(MOST_READERS).expect("an allowed room");
    let count = prng.pick(&[0, 1, 3, 63, 64]);
    for place in 0..count {
        list.heads.push(Head {
            id: place + 1,
            reliable: !prng.one_in(3),
            acked: near.number(prng).max(0),
        });
    }
    list
}

pub fn call(prng: &mut Prng, near: Near) -> ListCall {
    match prng.below(6) {
        0..=1 => ListCall::Match {
            id: id(prng),
            reliable: prng.coin(),
        },
        2 => ListCall::Depart { id: id(prng) },
        3 => ListCall::Find { id: id(prng) },
        4 => ListCall::SetAcked {
            id: id(prng),
            acked: near.number(prng),
        },
        _ => ListCall::Frontier,
    }
}

/// At, just inside and just outside the ends 0 or 1 and `most`.
fn at_ends(prng: &mut Prng, most: u64) -> u64 {
    match prng.below(6) {
        0 => prng.pick(&[0, most + 1, u64::MAX]),
        1 => most,
        _ => 1 + prng.below(most),
    }
}

pub fn cap(prng: &mut Prng) -> u64 {
    at_ends(prng, 1024)
}

pub fn kind(prng: &mut Prng) -> Kind {
    Kind {
        reliable: prng.coin(),
        builtin: prng.coin(),
        volatile: prng.coin(),
    }
}

pub fn limits(prng: &mut Prng) -> Limits {
    let slots = at_ends(prng, MOST_SLOTS);
    Limits {
        window: at_ends(prng, MOST_LIMIT),
        backlog: at_ends(prng, MOST_LIMIT),
        retain: at_ends(prng, slots.clamp(1, MOST_SLOTS)),
        slots,
        slot_bytes: at_ends(prng, MOST_SLOT_BYTES),
    }
}
