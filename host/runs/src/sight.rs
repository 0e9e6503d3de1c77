//! What is compared after every call: all that the crate shows.

use crate::subject::{ReaderSubject, WriterSubject};

/// Where the questions start that take a number.
#[derive(Clone, Copy, Debug)]
pub struct Probe {
    pub number: i64,
    pub fragment: u32,
}

#[derive(Clone, PartialEq, Eq, Debug)]
pub struct ReaderSight {
    pub acked: i64,
    pub unsent: Vec<i64>,
    /// Pending gap numbers from A upward.
    pub gaps: Vec<i64>,
    /// Every requested fragment, by sample.
    pub frags: Vec<(i64, u32)>,
    pub first_unsent: Option<i64>,
    pub next_unsent: Option<i64>,
    pub next_gap: Option<i64>,
    pub next_fragment: Option<(i64, u32)>,
    pub next_fragment_from: Option<(i64, u32)>,
    pub any_requested: bool,
}

impl ReaderSight {
    pub fn of(subject: &impl ReaderSubject, probe: Probe) -> Self {
        let record = subject.record();
        let mut gaps: Vec<i64> = (record.acked.max(1)..=record.prefix_end).collect();
        gaps.extend(record.gaps.iter().filter(|n| **n >= record.acked));
        let mut frags = Vec::new();
        for (sample, entry) in &record.frags {
            frags.extend(entry.iter().map(|f| (*sample, *f)));
        }
        ReaderSight {
            acked: record.acked,
            unsent: record.unsent.iter().copied().collect(),
            gaps,
            frags,
            first_unsent: subject.next_unsent(i64::MIN),
            next_unsent: subject.next_unsent(probe.number),
            next_gap: subject.next_pending_gap(probe.number),
            next_fragment: subject.next_fragment(0),
            next_fragment_from: subject.next_fragment(probe.fragment),
            any_requested: subject.any_requested(),
        }
    }
}

#[derive(Clone, PartialEq, Eq, Debug)]
pub struct WriterSight {
    pub last: i64,
    pub first: i64,
    /// What a fetch gives: every retained sample, and nothing just outside.
    pub bytes: Vec<Option<Vec<u8>>>,
    /// Acked-through at every number of a stretch, which shows the frontier.
    pub acked_through: Vec<bool>,
}

impl WriterSight {
    pub fn of(subject: &impl WriterSubject, probe: Probe) -> Self {
        let record = subject.record();
        let (first, last) = (record.flow.first, record.flow.last);
        let fetched = fetched_numbers(first, last, probe);
        let asked = asked_numbers(last, probe);
        WriterSight {
            last,
            first,
            bytes: fetched.map(|n| subject.fetch(n)).collect(),
            acked_through: asked.map(|n| subject.acked_through(n)).collect(),
        }
    }
}

pub fn fetched_numbers(first: i64, last: i64, probe: Probe) -> impl Iterator<Item = i64> {
    let ends = [i64::MIN, 0, i64::MAX, probe.number];
    (first - 1..=last + 1).chain(ends)
}

/// The frontier moves near the end; the last forty numbers show it.
pub fn asked_numbers(last: i64, probe: Probe) -> impl Iterator<Item = i64> {
    let ends = [i64::MIN, -1, 0, 1, i64::MAX, probe.number];
    ((last - 40).max(0)..=last + 1).chain(ends)
}
