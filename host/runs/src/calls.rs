//! Calls and replies as data, so that a run can be drawn, listed, altered and
//! printed.

use model::{FragmentSet, NumberSet};

#[derive(Clone, PartialEq, Eq, Debug)]
pub enum ReaderCall {
    Ack { set: NumberSet, last: i64 },
    Notify { number: i64 },
    MarkSent { number: i64 },
    RemoveBefore { number: i64 },
    Gap { number: i64, last: i64 },
    GapUpTo { end: i64, last: i64 },
    Request { sample: i64, set: FragmentSet },
    FragSent { sample: i64, fragment: u32 },
}

/// The crate's two ways of admission; the library has one for both.
#[derive(Clone, Copy, PartialEq, Eq, Debug)]
pub enum Way {
    Blocking,
    Try,
}

#[derive(Clone, PartialEq, Eq, Debug)]
pub enum WriterCall {
    Admit {
        opted_in: bool,
        bytes: Vec<u8>,
        way: Way,
    },
    SetAcked {
        frontier: Option<i64>,
    },
    SetSent {
        frontier: i64,
    },
    Evict {
        before: i64,
    },
}

#[derive(Clone, PartialEq, Eq, Debug)]
pub enum ListCall {
    Match { id: u64, reliable: bool },
    Depart { id: u64 },
    SetAcked { id: u64, acked: i64 },
    Find { id: u64 },
    Frontier,
}

/// Document 01's number, and the values that go with it: zeros where the
/// number isn't 0 or the call has no such value.
#[derive(Clone, Copy, PartialEq, Eq, Debug, Default)]
pub struct Reply {
    pub answer: u8,
    /// The admitted sample's number, a found reader's acked, or the frontier (0
    /// where it is absent).
    pub number: i64,
    /// Numbers left out at the cap.
    pub left_out: u64,
    /// "Wake"; of a found reader, whether it is reliable.
    pub wake: bool,
}

impl Reply {
    pub fn refused(answer: u8) -> Self {
        Reply {
            answer,
            ..Reply::default()
        }
    }
}
