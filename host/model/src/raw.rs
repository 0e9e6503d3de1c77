//! Records as they are lent over a boundary: a proxy of plain numbers and rooms
//! of words, which may hold anything. `view` reads a coherent one, `form`
//! writes it back with all unused room zero.

use std::collections::{BTreeMap, BTreeSet};

use crate::{
    flow::Flow,
    numbers::{MOST_FRAGMENTED, MOST_GAPS},
    reader::Reader,
    store::SendBuffer,
};

const WORDS_PER_SAMPLE: usize = 64;

#[derive(Clone, PartialEq, Eq, Debug)]
pub struct RawReader {
    pub acked: i64,
    pub cap: u64,
    pub prefix_end: i64,
    pub unsent_count: u64,
    pub gap_count: u64,
    pub frag_count: u64,
    /// M words.
    pub unsent: Vec<u64>,
    /// 256 words.
    pub gaps: Vec<u64>,
    /// 16 words.
    pub samples: Vec<u64>,
    /// 16 times 64 words; fragment f is bit (f-1) mod 64, lowest first.
    pub bits: Vec<u64>,
}

/// The first `count` words rise strictly and are numbers; the others are 0.
fn rising(room: &[u64], count: u64, length: usize) -> Option<Vec<i64>> {
    if room.len() != length || count > length as u64 {
        return None;
    }
    let (used, unused) = room.split_at(count as usize);
    let rises = used.windows(2).all(|w| w[0] < w[1]);
    let fits = used.iter().all(|n| *n <= i64::MAX as u64);
    let zero = unused.iter().all(|n| *n == 0);
    if rises && fits && zero {
        Some(used.iter().map(|n| *n as i64).collect())
    } else {
        None
    }
}

fn fragments_of(words: &[u64]) -> BTreeSet<u32> {
    let mut fragments = BTreeSet::new();
    let used = words.iter().enumerate().filter(|(_, word)| **word != 0);
    for (place, word) in used {
        let bits = (0..64).filter(|i| word >> i & 1 == 1);
        fragments.extend(bits.map(|i| 64 * place as u32 + i + 1));
    }
    fragments
}

impl RawReader {
    fn view_frags(&self) -> Option<BTreeMap<i64, BTreeSet<u32>>> {
        let samples = rising(&self.samples, self.frag_count, MOST_FRAGMENTED)?;
        if self.bits.len() != MOST_FRAGMENTED * WORDS_PER_SAMPLE {
            return None;
        }
        let mut blocks = self.bits.chunks(WORDS_PER_SAMPLE).map(fragments_of);
        let used: Vec<_> = blocks.by_ref().take(samples.len()).collect();
        if blocks.all(|block| block.is_empty()) {
            Some(samples.into_iter().zip(used).collect())
        } else {
            None
        }
    }

    /// The record it stands for, or `None` if it isn't coherent.
    pub fn view(&self) -> Option<Reader> {
        let cap = usize::try_from(self.cap).ok()?;
        let reader = Reader {
            acked: self.acked,
            cap,
            unsent: rising(&self.unsent, self.unsent_count, cap)?
                .into_iter()
                .collect(),
            prefix_end: self.prefix_end,
            gaps: rising(&self.gaps, self.gap_count, MOST_GAPS)?
                .into_iter()
                .collect(),
            frags: self.view_frags()?,
        };
        if reader.is_coherent() {
            Some(reader)
        } else {
            None
        }
    }

    pub fn form(reader: &Reader) -> RawReader {
        let mut bits = vec![0; MOST_FRAGMENTED * WORDS_PER_SAMPLE];
        for (block, entry) in reader.frags.values().enumerate() {
            for f in entry {
                let place = (*f as usize) - 1;
                bits[block * WORDS_PER_SAMPLE + place / 64] |= 1 << (place % 64);
            }
        }
        RawReader {
            acked: reader.acked,
            cap: reader.cap as u64,
            prefix_end: reader.prefix_end,
            unsent_count: reader.unsent.len() as u64,
            gap_count: reader.gaps.len() as u64,
            frag_count: reader.frags.len() as u64,
            unsent: room(reader.unsent.iter(), reader.cap),
            gaps: room(reader.gaps.iter(), MOST_GAPS),
            samples: room(reader.frags.keys(), MOST_FRAGMENTED),
            bits,
        }
    }
}

fn room<'a>(numbers: impl Iterator<Item = &'a i64>, length: usize) -> Vec<u64> {
    let mut room: Vec<u64> = numbers.map(|n| *n as u64).collect();
    room.resize(length, 0);
    room
}

/// The lent store: S slots of bytes, and a length for each slot. Sample n lies
/// in slot (n-1) mod S.
#[derive(Clone, PartialEq, Eq, Debug)]
pub struct RawStore {
    pub bytes: Vec<u8>,
    pub lengths: Vec<u64>,
}

impl RawStore {
    /// Flow record and store together, or `None` if one isn't coherent.
    pub fn view(&self, flow: &Flow) -> Option<SendBuffer> {
        let (slots, width) = (flow.limits.slots, flow.limits.slot_bytes);
        let fits = flow.is_coherent()
            && self.bytes.len() as u64 == slots * width
            && self.lengths.len() as u64 == slots;
        if !fits {
            return None;
        }
        let mut samples = BTreeMap::new();
        for number in flow.first..=flow.last {
            let slot = (number - 1) as u64 % slots;
            let length = self.lengths[slot as usize];
            if length > width {
                return None;
            }
            let start = (slot * width) as usize;
            let bytes = &self.bytes[start..start + length as usize];
            samples.insert(number, bytes.to_vec());
        }
        Some(SendBuffer {
            flow: flow.clone(),
            samples,
        })
    }
}
