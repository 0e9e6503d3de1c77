//! The flow record: admission's room, the two frontiers, eviction.

use crate::{
    numbers::{first_of, Answer, Refusal, MOST_LIMIT, MOST_SLOTS, MOST_SLOT_BYTES},
    reader::above_next,
};

#[derive(Clone, Copy, PartialEq, Eq, Debug)]
pub struct Kind {
    pub reliable: bool,
    pub builtin: bool,
    pub volatile: bool,
}

#[derive(Clone, Copy, PartialEq, Eq, Debug)]
pub struct Limits {
    pub window: u64,
    pub backlog: u64,
    pub retain: u64,
    /// S in document 01.
    pub slots: u64,
    pub slot_bytes: u64,
}

impl Limits {
    pub fn is_allowed(&self) -> bool {
        (1..=MOST_SLOTS).contains(&self.slots)
            && (1..=MOST_SLOT_BYTES).contains(&self.slot_bytes)
            && self.window <= MOST_LIMIT
            && self.backlog <= MOST_LIMIT
            && self.retain <= self.slots
    }

    pub fn none_is_0(&self) -> bool {
        self.window > 0 && self.backlog > 0 && self.retain > 0
    }
}

#[derive(Clone, PartialEq, Eq, Debug)]
pub struct Flow {
    pub last: i64,
    pub first: i64,
    pub sent: i64,
    /// The acknowledgement frontier; it counts while `present`.
    pub acked: i64,
    /// Whether a reliable reader is present.
    pub present: bool,
    pub kind: Kind,
    pub limits: Limits,
}

impl Flow {
    pub fn new(kind: Kind, limits: Limits) -> Answer<Flow> {
        first_of(&[(!limits.is_allowed(), Refusal::LimitNotAllowed)])?;
        Ok(Flow {
            last: 0,
            first: 1,
            sent: 0,
            acked: 1,
            present: false,
            kind,
            // 0 counts as 1.
            limits: Limits {
                window: limits.window.max(1),
                backlog: limits.backlog.max(1),
                retain: limits.retain.max(1),
                ..limits
            },
        })
    }

    pub fn may_block(&self, opted_in: bool) -> bool {
        self.kind.reliable || opted_in
    }

    pub fn has_room(&self, opted_in: bool) -> bool {
        if self.kind.builtin || !self.may_block(opted_in) {
            return true;
        }
        let (last, sent, acked) = (self.last as i128, self.sent as i128, self.acked as i128);
        if last - sent >= i128::from(self.limits.backlog) {
            return false;
        }
        if !self.kind.reliable || !self.present {
            return true;
        }
        last - acked + 1 < i128::from(self.limits.window)
    }

    /// Whether an admission trims to `retain`.
    pub fn trims(&self, opted_in: bool) -> bool {
        let nobody_waits = self.kind.reliable && self.kind.volatile && !self.present;
        !self.kind.builtin && (!self.may_block(opted_in) || nobody_waits)
    }

    /// `None` is "no reliable reader". The answer is "wake".
    pub fn set_acked_frontier(&mut self, frontier: Option<i64>) -> Answer<bool> {
        let beyond = frontier.map_or(false, |f| above_next(f, self.last));
        first_of(&[
            (!self.is_coherent(), Refusal::Incoherent),
            (beyond, Refusal::OutOfRange),
        ])?;
        let wake = match frontier {
            Some(f) => !self.present || f.max(1) > self.acked,
            None => self.present,
        };
        self.acked = frontier.map_or(self.acked, |f| f.max(1));
        self.present = frontier.is_some();
        Ok(wake)
    }

    /// The answer is "wake".
    pub fn set_sent_frontier(&mut self, frontier: i64) -> Answer<bool> {
        first_of(&[
            (!self.is_coherent(), Refusal::Incoherent),
            (frontier > self.last, Refusal::OutOfRange),
        ])?;
        let higher = frontier > self.sent;
        self.sent = self.sent.max(frontier);
        Ok(higher)
    }

    pub fn evict_before(&mut self, number: i64) -> Answer<()> {
        first_of(&[
            (!self.is_coherent(), Refusal::Incoherent),
            (above_next(number, self.last), Refusal::OutOfRange),
        ])?;
        self.first = self.first.max(number);
        Ok(())
    }

    pub fn is_acked_through(&self, number: i64) -> Answer<bool> {
        first_of(&[(!self.is_coherent(), Refusal::Incoherent)])?;
        Ok(!self.present || self.acked > number)
    }
}
