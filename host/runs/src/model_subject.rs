//! The model as a subject.

use model::{Answer, Kind, Limits, Reader, ReaderList, Refusal, SendBuffer};

use crate::{
    calls::{ListCall, ReaderCall, Reply, WriterCall},
    subject::{ListSubject, ReaderSubject, Subjects, WriterSubject},
};

#[derive(Clone, Copy, Default)]
pub struct Model;

impl Subjects for Model {
    type Reader = Reader;
    type Writer = SendBuffer;
    type List = ReaderList;

    fn reader(&self, start: &Reader) -> Reader {
        start.clone()
    }

    fn writer(&self, start: &SendBuffer) -> SendBuffer {
        start.clone()
    }

    fn list(&self, start: &ReaderList) -> ReaderList {
        start.clone()
    }

    fn new_reader(&self, cap: u64) -> Result<Reader, u8> {
        // A cap that no usize holds is as little allowed as the largest one.
        let cap = usize::try_from(cap).unwrap_or(usize::MAX);
        Reader::new(cap).map_err(Refusal::number)
    }

    fn new_writer(&self, kind: Kind, limits: Limits) -> Result<SendBuffer, u8> {
        SendBuffer::new(kind, limits).map_err(Refusal::number)
    }
}

fn reply<T>(answer: Answer<T>, values: impl FnOnce(T) -> Reply) -> Reply {
    match answer {
        Ok(value) => values(value),
        Err(refusal) => Reply::refused(refusal.number()),
    }
}

fn done(_: ()) -> Reply {
    Reply::default()
}

fn number(number: i64) -> Reply {
    Reply {
        number,
        ..Reply::default()
    }
}

fn woken(wake: bool) -> Reply {
    Reply {
        wake,
        ..Reply::default()
    }
}

impl ReaderSubject for Reader {
    fn call(&mut self, call: &ReaderCall) -> Reply {
        match call {
            ReaderCall::Ack { set, last } => {
                reply(self.handle_ack_nack(set, *last), |left_out| Reply {
                    left_out,
                    ..Reply::default()
                })
            }
            ReaderCall::Notify { number } => reply(self.notify_new_cache_change(*number), done),
            ReaderCall::MarkSent { number } => reply(self.mark_change_sent(*number), done),
            ReaderCall::RemoveBefore { number } => {
                reply(self.remove_from_unsent_set_all_before(*number), done)
            }
            ReaderCall::Gap { number, last } => {
                reply(self.insert_pending_gap(*number, *last), done)
            }
            ReaderCall::GapUpTo { end, last } => {
                reply(self.set_pending_gap_up_to(*end, *last), done)
            }
            ReaderCall::Request { sample, set } => {
                reply(self.mark_frags_requested(*sample, set), done)
            }
            ReaderCall::FragSent { sample, fragment } => {
                reply(self.mark_frag_sent(*sample, *fragment), done)
            }
        }
    }

    fn record(&self) -> Reader {
        self.clone()
    }

    fn next_unsent(&self, from: i64) -> Option<i64> {
        Reader::next_unsent(self, from).ok()
    }

    fn next_pending_gap(&self, from: i64) -> Option<i64> {
        Reader::next_pending_gap(self, from).ok()
    }

    fn next_fragment(&self, from: u32) -> Option<(i64, u32)> {
        Reader::next_fragment(self, from).ok()
    }

    fn any_requested(&self) -> bool {
        Reader::any_requested(self) == Ok(true)
    }
}

impl WriterSubject for SendBuffer {
    fn call(&mut self, call: &WriterCall) -> Reply {
        match call {
            WriterCall::Admit {
                opted_in, bytes, ..
            } => reply(self.admit(*opted_in, bytes), number),
            WriterCall::SetAcked { frontier } => {
                reply(self.flow.set_acked_frontier(*frontier), woken)
            }
            WriterCall::SetSent { frontier } => {
                reply(self.flow.set_sent_frontier(*frontier), woken)
            }
            WriterCall::Evict { before } => reply(self.evict_before(*before), done),
        }
    }

    fn record(&self) -> SendBuffer {
        self.clone()
    }

    fn fetch(&self, number: i64) -> Option<Vec<u8>> {
        self.get(number).ok().map(<[u8]>::to_vec)
    }

    fn acked_through(&self, number: i64) -> bool {
        self.flow.is_acked_through(number) == Ok(true)
    }
}

impl ListSubject for ReaderList {
    fn call(&mut self, call: &ListCall) -> Reply {
        match call {
            ListCall::Match { id, reliable } => reply(self.match_reader(*id, *reliable), done),
            ListCall::Depart { id } => reply(self.depart(*id), done),
            ListCall::SetAcked { id, acked } => reply(self.set_acked(*id, *acked), done),
            ListCall::Find { id } => reply(self.find(*id), |place| Reply {
                number: self.heads[place].acked,
                wake: self.heads[place].reliable,
                ..Reply::default()
            }),
            ListCall::Frontier => reply(self.frontier(), |f| number(f.unwrap_or(0))),
        }
    }

    fn record(&self) -> ReaderList {
        let mut list = self.clone();
        list.heads.sort_by_key(|h| h.id);
        list
    }
}
