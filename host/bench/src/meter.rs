//! What is measured: the calls of one function, whose instructions callgrind
//! counts and a clock times.

use std::time::{Duration, Instant};

pub const LIBRARY: &str = "library";
pub const CRATE: &str = "crate";

/// Callgrind counts from this function's call to its return, and writes the
/// count down there (`--toggle-collect`, `--dump-after`).
#[no_mangle]
#[inline(never)]
pub fn measured(work: &mut dyn FnMut()) {
    work();
}

pub struct Meter {
    rounds: u32,
    /// What the calls returned goes in here, so that none is left out.
    sum: u64,
}

impl Meter {
    pub fn new(rounds: u32) -> Self {
        Meter { rounds, sum: 0 }
    }

    pub fn sink(&self) -> u64 {
        self.sum
    }

    /// What a row costs that does nothing.
    pub fn empty_loop(&mut self) {
        self.row("empty", LIBRARY, &[0u64; 256], 1, |state| *state);
    }

    /// `work` on a copy of each state, `calls` calls for each. The copies are
    /// made and dropped outside of what is measured. Of the rounds' times the
    /// least counts: the others were disturbed.
    pub fn row<S: Clone>(
        &mut self,
        name: &str,
        subject: &str,
        states: &[S],
        calls: u64,
        work: impl Fn(&mut S) -> u64,
    ) {
        let mut least = Duration::MAX;
        for _ in 0..self.rounds {
            let mut copies = states.to_vec();
            let mut sum = 0u64;
            let start = Instant::now();
            measured(&mut || {
                for state in &mut copies {
                    sum = sum.wrapping_add(work(state));
                }
            });
            least = least.min(start.elapsed());
            self.sum = self.sum.wrapping_add(sum);
        }
        let calls = states.len() as u64 * calls;
        println!("{}\t{}\t{}\t{}", name, subject, calls, least.as_nanos());
    }
}
