//! "Sets as RTPS writes them".

use crate::numbers::MOST_BITS;

/// Bit i (from 0) is the bit of worth 2^(31 - i mod 32) in word i div 32. Bits
/// at or past the count are ignored; a count that is too long is refused
/// before anyone looks here.
fn places(count: u32, words: &[u32; 8]) -> Vec<u32> {
    (0..count.min(MOST_BITS))
        .filter(|i| words[(i / 32) as usize] & (1 << (31 - i % 32)) != 0)
        .collect()
}

fn words_of(places: impl Iterator<Item = u32>) -> [u32; 8] {
    let mut words = [0; 8];
    for i in places {
        words[(i / 32) as usize] |= 1 << (31 - i % 32);
    }
    words
}

/// A set of sequence numbers.
#[derive(Clone, Copy, PartialEq, Eq, Debug)]
pub struct NumberSet {
    pub base: i64,
    pub count: u32,
    pub words: [u32; 8],
}

impl NumberSet {
    /// The members given, none below the base; `None` where they span more
    /// than 256 numbers. The bit count ends at the highest member.
    pub fn of(base: i64, members: &[i64]) -> Option<NumberSet> {
        let mut places = Vec::new();
        for member in members {
            let place = i128::from(*member) - i128::from(base);
            if !(0..i128::from(MOST_BITS)).contains(&place) {
                return None;
            }
            places.push(place as u32);
        }
        Some(NumberSet {
            base,
            count: places.iter().max().map_or(0, |p| p + 1),
            words: words_of(places.into_iter()),
        })
    }

    pub fn is_too_long(&self) -> bool {
        self.count > MOST_BITS
    }

    /// Wider than a sequence number: base+i may pass 2^63-1.
    pub fn members(&self) -> Vec<i128> {
        let base = i128::from(self.base);
        let places = places(self.count, &self.words);
        places.into_iter().map(|i| base + i128::from(i)).collect()
    }
}

/// A set of fragment numbers: the same form on a 32-bit base.
#[derive(Clone, Copy, PartialEq, Eq, Debug)]
pub struct FragmentSet {
    pub base: u32,
    pub count: u32,
    pub words: [u32; 8],
}

impl FragmentSet {
    pub fn of(base: u32, members: &[u32]) -> Option<FragmentSet> {
        let wide: Vec<i64> = members.iter().map(|m| i64::from(*m)).collect();
        let set = NumberSet::of(i64::from(base), &wide)?;
        Some(FragmentSet {
            base,
            count: set.count,
            words: set.words,
        })
    }

    pub fn is_too_long(&self) -> bool {
        self.count > MOST_BITS
    }

    pub fn members(&self) -> Vec<u64> {
        let base = u64::from(self.base);
        let places = places(self.count, &self.words);
        places.into_iter().map(|i| base + u64::from(i)).collect()
    }
}
