//! The crate's `WriterSendBuffer` on plain numbers and byte strings.

use std::{
    sync::{
        atomic::{AtomicBool, Ordering},
        Arc,
    },
    task::{Wake, Waker},
    time::Duration,
};

use crate::{
    dds::{ddsdata::DDSData, with_key::datawriter::WriteOptions},
    rtps::writer_send_buffer::{Admission, WriterSendBuffer},
    structure::{guid::GUID, sequence_number::SequenceNumber},
};

#[derive(Clone, Copy, Debug)]
pub struct Kind {
    pub reliable: bool,
    pub builtin: bool,
    pub volatile: bool,
}

#[derive(Clone, Copy, Debug)]
pub struct Limits {
    pub window: usize,
    pub backlog: usize,
    pub retain: usize,
}

/// Whether the crate woke a waiter: the crate's form of the answer "wake".
struct Woken(AtomicBool);

impl Wake for Woken {
    fn wake(self: Arc<Self>) {
        self.0.store(true, Ordering::SeqCst);
    }
}

pub struct Writer {
    buffer: WriterSendBuffer,
    woken: Arc<Woken>,
    waker: Waker,
}

impl Writer {
    pub fn new(kind: Kind, limits: Limits) -> Self {
        let woken = Arc::new(Woken(AtomicBool::new(false)));
        let buffer = WriterSendBuffer::new(
            GUID::default(),
            String::new(),
            kind.reliable,
            kind.builtin,
            kind.volatile,
            limits.window,
            limits.backlog,
            limits.retain,
        );
        let waker = Waker::from(woken.clone());
        Writer {
            buffer,
            woken,
            waker,
        }
    }

    /// `admit_blocking` with no time to wait; `None` is "would block".
    pub fn admit_blocking(&self, may_block: bool, bytes: &[u8]) -> Option<i64> {
        let data = DDSData(bytes.into());
        let options = WriteOptions { may_block };
        match self
            .buffer
            .admit_blocking(options, data, Some(Duration::ZERO))
        {
            Admission::Admitted(number) => Some(i64::from(number)),
            Admission::WouldBlock => None,
        }
    }

    pub fn try_admit(&self, may_block: bool, bytes: &[u8]) -> Option<i64> {
        let data = DDSData(bytes.into());
        let options = WriteOptions { may_block };
        let admitted = self.buffer.try_admit(options, data, &self.waker);
        admitted.ok().map(i64::from)
    }

    /// Whether a waiter registered beforehand was woken.
    pub fn set_acked_frontier(&self, frontier: Option<i64>) -> bool {
        let frontier = frontier.map(SequenceNumber::new);
        self.wakes(|buffer| buffer.set_acked_frontier(frontier))
    }

    /// The crate's call alone, with no waiter registered.
    pub fn store_acked_frontier(&self, frontier: Option<i64>) {
        let frontier = frontier.map(SequenceNumber::new);
        self.buffer.set_acked_frontier(frontier);
    }

    pub fn set_sent_frontier(&self, frontier: i64) -> bool {
        self.wakes(|buffer| buffer.set_sent_frontier(SequenceNumber::new(frontier)))
    }

    pub fn remove_changes_before(&self, number: i64) -> bool {
        self.wakes(|buffer| buffer.remove_changes_before(SequenceNumber::new(number)))
    }

    fn wakes(&self, call: impl FnOnce(&WriterSendBuffer)) -> bool {
        self.buffer.register_ack_waker(&self.waker);
        self.woken.0.store(false, Ordering::SeqCst);
        call(&self.buffer);
        self.woken.0.load(Ordering::SeqCst)
    }
}

/// What can be seen of the buffer.
impl Writer {
    pub fn last_change_sequence_number(&self) -> i64 {
        i64::from(self.buffer.last_change_sequence_number())
    }

    pub fn first_change_sequence_number(&self) -> i64 {
        i64::from(self.buffer.first_change_sequence_number())
    }

    /// The bytes, after a look that the sample carries its own number.
    pub fn get_by_sn(&self, number: i64) -> Option<Arc<[u8]>> {
        let change = self.buffer.get_by_sn(SequenceNumber::new(number))?;
        assert_eq!(i64::from(change.sequence_number), number);
        Some(change.data_value.0)
    }

    pub fn is_acked_through(&self, number: i64) -> bool {
        self.buffer.is_acked_through(SequenceNumber::new(number))
    }

    pub fn wait_for_acked_through(&self, number: i64) -> bool {
        self.buffer
            .wait_for_acked_through(SequenceNumber::new(number), Duration::ZERO)
    }
}
