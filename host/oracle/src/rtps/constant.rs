//! Stand-in for the crate's constants. Only the unsent cap matters here.

#[derive(Clone, Copy, PartialEq, Eq, Hash, Debug)]
pub struct Token(pub usize);

pub const USER_TRAFFIC_LISTENER_TOKEN: Token = Token(1);
pub const USER_TRAFFIC_MUL_LISTENER_TOKEN: Token = Token(2);
pub const DISCOVERY_LISTENER_TOKEN: Token = Token(3);
pub const DISCOVERY_MUL_LISTENER_TOKEN: Token = Token(4);
pub const FALLBACK_MAX_AGGREGATED_DATAGRAM_SIZE: usize = 1400;

// Either the constant itself and `fixed`, or `per_reader`, as the build says.
include!(concat!(env!("OUT_DIR"), "/unsent_cap.rs"));

/// A plain number, as in the crate.
mod fixed {
    /// Nothing to choose: the constant holds.
    pub fn with_cap<T>(_cap: usize, call: impl FnOnce() -> T) -> T {
        call()
    }
}

/// The crate's file only compares the length of its set with the constant. A
/// constant of a type of its own, whose comparison reads the cap of the reader
/// being called, lets one build serve every cap without touching the file.
mod per_reader {
    use std::{cell::Cell, cmp::Ordering};

    pub struct UnsentCap;
    pub const MAX_UNSENT_CHANGES_PER_READER: UnsentCap = UnsentCap;

    thread_local!(static CAP: Cell<usize> = Cell::new(1024));

    pub fn with_cap<T>(cap: usize, call: impl FnOnce() -> T) -> T {
        CAP.with(|c| c.set(cap));
        call()
    }

    impl PartialEq<UnsentCap> for usize {
        fn eq(&self, _: &UnsentCap) -> bool {
            CAP.with(|c| *self == c.get())
        }
    }

    impl PartialOrd<UnsentCap> for usize {
        fn partial_cmp(&self, _: &UnsentCap) -> Option<Ordering> {
            CAP.with(|c| Some(self.cmp(&c.get())))
        }
    }
}
