//! Random calls on a reader. The numbers lie close together, so that calls
//! meet each other; where they lie differs from world to world.

use model::{numbers::LAST_SAMPLE, FragmentSet, NumberSet};

use crate::{calls::ReaderCall, prng::Prng, sight::Probe};

pub struct ReaderWorld {
    pub cap: usize,
    /// Numbers are drawn from low through low+width.
    low: i64,
    width: i64,
    last: i64,
}

impl ReaderWorld {
    pub fn new(prng: &mut Prng) -> Self {
        let cap = oracle::fixed_cap().unwrap_or_else(|| prng.pick(&[1, 2, 3, 8, 8, 64, 256, 1024]));
        let width = prng.pick(&[6, 20, 20, 300]);
        let low = match prng.below(6) {
            0 => (1 << 32) - width / 2,
            1 => LAST_SAMPLE - width,
            _ => 0,
        };
        let last = low + prng.between(0, width / 2);
        ReaderWorld {
            cap,
            low,
            width,
            last,
        }
    }

    fn number(&self, prng: &mut Prng) -> i64 {
        self.low + prng.between(0, self.width)
    }

    /// For calls that take any number.
    fn any_number(&self, prng: &mut Prng) -> i64 {
        match prng.below(20) {
            0 => prng.pick(&[i64::MIN, -1, 0, 1, LAST_SAMPLE, i64::MAX]),
            _ => self.number(prng),
        }
    }

    pub fn probe(&self, prng: &mut Prng) -> Probe {
        Probe {
            number: self.any_number(prng),
            fragment: self.fragment(prng),
        }
    }

    fn fragment(&self, prng: &mut Prng) -> u32 {
        match prng.below(12) {
            0 => prng.pick(&[0, 64, 65, 4095, 4096, 4097, u32::MAX]),
            1 => 1 + prng.below(4096) as u32,
            _ => 1 + prng.below(8) as u32,
        }
    }

    pub fn draw(&mut self, prng: &mut Prng, acked: i64) -> ReaderCall {
        if prng.one_in(8) {
            let raised = self.last.saturating_add(prng.between(0, 3));
            self.last = raised.min(self.low + self.width);
        }
        let last = match prng.below(10) {
            0 => self.number(prng).min(LAST_SAMPLE),
            _ => self.last,
        };
        match prng.below(20) {
            0..=5 => self.ack(prng, acked, last),
            6..=9 => ReaderCall::Notify {
                number: self.number(prng),
            },
            10 => ReaderCall::MarkSent {
                number: self.any_number(prng),
            },
            11 => ReaderCall::RemoveBefore {
                number: self.any_number(prng),
            },
            12..=13 => ReaderCall::Gap {
                number: self.number(prng).min(last),
                last,
            },
            14 => self.prefix(prng, last),
            15..=16 => self.request(prng),
            _ => ReaderCall::FragSent {
                sample: self.sample(prng),
                fragment: self.fragment(prng),
            },
        }
    }

    fn prefix(&self, prng: &mut Prng, last: i64) -> ReaderCall {
        let end = prng.between(0, last.min(self.width));
        ReaderCall::GapUpTo { end, last }
    }

    fn ack(&self, prng: &mut Prng, acked: i64, last: i64) -> ReaderCall {
        let base = match prng.below(8) {
            0 => prng.pick(&[0, 1]),
            1 => last.saturating_add(prng.between(-1, 3)),
            2..=4 => acked.saturating_add(prng.between(-3, 3)),
            _ => self.number(prng),
        };
        let base = base.max(0);
        let mut set = NumberSet {
            base,
            count: bit_count(prng),
            words: words(prng, self.cap),
        };
        // A late request above last is outside the range (D1), as is number 0:
        // most draws leave these out, so that enough calls are inside.
        if base.max(1) < acked && !prng.one_in(10) {
            let room = last.saturating_sub(base).saturating_add(1);
            set.count = set.count.min(room.clamp(0, 256) as u32);
        }
        if base == 0 && !prng.one_in(10) {
            set.words[0] &= u32::MAX >> 1;
        }
        ReaderCall::Ack { set, last }
    }

    /// Few samples, or requests would seldom meet; now and then many.
    fn sample(&self, prng: &mut Prng) -> i64 {
        match prng.below(4) {
            0 => self.any_number(prng),
            _ => self.low + prng.between(1, 4),
        }
    }

    fn request(&self, prng: &mut Prng) -> ReaderCall {
        let base = self.fragment(prng);
        let room = 4097u32.saturating_sub(base).min(256);
        let count = bit_count(prng);
        let set = FragmentSet {
            base,
            count: if prng.one_in(10) {
                count
            } else {
                count.min(room)
            },
            words: words(prng, 32),
        };
        let sample = self.sample(prng);
        ReaderCall::Request { sample, set }
    }
}

fn bit_count(prng: &mut Prng) -> u32 {
    match prng.below(6) {
        0 => 0,
        1 => prng.pick(&[31, 32, 33, 63, 64, 65, 255, 256]),
        2 => 1 + prng.below(256) as u32,
        _ => 1 + prng.below(8) as u32,
    }
}

/// Sparse where the cap is small, or most acknowledgements would pass it.
fn words(prng: &mut Prng, cap: usize) -> [u32; 8] {
    let thin = if cap < 16 { 3 } else { prng.below(3) };
    let mut words = [u32::MAX; 8];
    for word in words.iter_mut() {
        for _ in 0..thin {
            *word &= prng.next() as u32;
        }
    }
    words
}
