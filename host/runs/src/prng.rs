//! A small generator of pseudo-random numbers (SplitMix64): the same seed
//! gives the same run on every machine.

#[derive(Clone)]
pub struct Prng(u64);

impl Prng {
    pub fn new(seed: u64) -> Self {
        Prng(seed)
    }

    /// Two seeds must not share worlds, so the seed is stirred first.
    pub fn of_world(seed: u64, world: u64) -> Self {
        Prng(Prng(seed).next().wrapping_add(world))
    }

    pub fn next(&mut self) -> u64 {
        self.0 = self.0.wrapping_add(0x9E37_79B9_7F4A_7C15);
        let mut z = self.0;
        z = (z ^ (z >> 30)).wrapping_mul(0xBF58_476D_1CE4_E5B9);
        z = (z ^ (z >> 27)).wrapping_mul(0x94D0_49BB_1331_11EB);
        z ^ (z >> 31)
    }

    /// 0 up to before n.
    pub fn below(&mut self, n: u64) -> u64 {
        self.next() % n
    }

    /// low through high; the bias of the remainder doesn't matter here.
    pub fn between(&mut self, low: i64, high: i64) -> i64 {
        let span = (high as i128 - low as i128 + 1) as u128;
        let at = u128::from(self.next()) % span;
        (low as i128 + at as i128) as i64
    }

    pub fn one_in(&mut self, n: u64) -> bool {
        self.below(n) == 0
    }

    pub fn coin(&mut self) -> bool {
        self.one_in(2)
    }

    pub fn pick<T: Copy>(&mut self, from: &[T]) -> T {
        from[self.below(from.len() as u64) as usize]
    }
}
