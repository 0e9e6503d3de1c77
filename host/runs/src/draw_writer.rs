//! Random calls on a send buffer of a random kind with small limits.

use model::{Kind, Limits};

use crate::{
    calls::{Way, WriterCall},
    prng::Prng,
    sight::Probe,
};

pub struct WriterWorld {
    pub kind: Kind,
    pub limits: Limits,
}

impl WriterWorld {
    pub fn new(prng: &mut Prng) -> Self {
        let kind = Kind {
            reliable: !prng.one_in(3),
            builtin: prng.one_in(6),
            volatile: prng.coin(),
        };
        let slots = match prng.below(8) {
            0 => 256,
            1 => 1,
            _ => 1 + prng.below(12),
        };
        let limits = Limits {
            window: limit(prng),
            backlog: limit(prng),
            retain: prng.below(slots + 1),
            slots,
            slot_bytes: prng.pick(&[1, 4, 16]),
        };
        WriterWorld { kind, limits }
    }

    pub fn probe(&self, prng: &mut Prng, last: i64) -> Probe {
        Probe {
            number: prng.between(-2, last + 3),
            fragment: 0,
        }
    }

    pub fn draw(&self, prng: &mut Prng, last: i64) -> WriterCall {
        match prng.below(16) {
            0..=6 => self.admit(prng),
            7..=10 => WriterCall::SetAcked {
                frontier: frontier(prng, last),
            },
            11..=13 => WriterCall::SetSent {
                frontier: near_end(prng, last),
            },
            _ => WriterCall::Evict {
                before: near_end(prng, last + 1),
            },
        }
    }

    fn admit(&self, prng: &mut Prng) -> WriterCall {
        let length = prng.below(self.limits.slot_bytes + 1);
        WriterCall::Admit {
            opted_in: prng.coin(),
            bytes: (0..length).map(|_| prng.next() as u8).collect(),
            way: prng.pick(&[Way::Blocking, Way::Try]),
        }
    }
}

fn limit(prng: &mut Prng) -> u64 {
    match prng.below(6) {
        0 => (1 << 31) - 1,
        1 => 0,
        _ => 1 + prng.below(8),
    }
}

fn frontier(prng: &mut Prng, last: i64) -> Option<i64> {
    match prng.below(8) {
        0 => None,
        1 => Some(prng.pick(&[i64::MIN, -1, 0, 1])),
        _ => Some(near_end(prng, last + 1)),
    }
}

/// Mostly the last few numbers up to `end`, sometimes one past it (outside the
/// compared range), sometimes anything below.
fn near_end(prng: &mut Prng, end: i64) -> i64 {
    match prng.below(12) {
        0 => end + 1,
        1 => prng.pick(&[i64::MIN, -1, 0]),
        2 => prng.between(-1, end.max(0)),
        _ => prng.between(end - 4, end),
    }
}
