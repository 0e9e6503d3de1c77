//! The proved library as a subject.

use model::{Kind, Limits, Reader, ReaderList, SendBuffer};
use sintemuno::ffi::{
    self, Acked, AckedFrontier, Cursor, FragmentCursor, FragmentNumber, Match, NextNumber,
    ReaderHead, SequenceNumber,
};

use crate::{
    calls::{ListCall, ReaderCall, Reply, WriterCall},
    forms::{self, LentReader, LentWriter},
    subject::{ListSubject, ReaderSubject, Subjects, WriterSubject},
};

#[derive(Clone, Copy, Default)]
pub struct Library;

impl Subjects for Library {
    type Reader = LentReader;
    type Writer = LentWriter;
    type List = Vec<ReaderHead>;

    fn reader(&self, start: &Reader) -> LentReader {
        LentReader::form(start)
    }

    fn writer(&self, start: &SendBuffer) -> LentWriter {
        LentWriter::form(start)
    }

    fn list(&self, start: &ReaderList) -> Vec<ReaderHead> {
        forms::slots(start)
    }

    fn new_reader(&self, cap: u64) -> Result<Reader, u8> {
        let cap = usize::try_from(cap).unwrap_or(usize::MAX);
        let made = ffi::reader_new(cap);
        if made.answer.number != 0 {
            return Err(made.answer.number as u8);
        }
        let mut lent = LentReader::form(&Reader::new(1).expect("an allowed cap"));
        lent.proxy = made.proxy;
        lent.unsent = vec![0; cap];
        Ok(lent.record())
    }

    fn new_writer(&self, kind: Kind, limits: Limits) -> Result<SendBuffer, u8> {
        let made = ffi::writer_new(forms::kind(kind), forms::limits(limits));
        if made.answer.number != 0 {
            return Err(made.answer.number as u8);
        }
        Ok(SendBuffer {
            flow: forms::flow_view(&made.flow),
            samples: Default::default(),
        })
    }
}

fn answered(answer: ffi::Answer) -> Reply {
    Reply::refused(answer.number as u8)
}

impl ReaderSubject for LentReader {
    fn call(&mut self, call: &ReaderCall) -> Reply {
        let (proxy, unsent, gaps) = (self.proxy, &mut self.unsent, &mut self.gaps);
        let (samples, words) = (&mut self.samples, &mut self.words);
        let changed = match call {
            ReaderCall::Ack { set, last } => {
                let set = forms::number_set(set);
                let last = SequenceNumber(*last);
                let taken = ffi::reader_handle_ack_nack(proxy, unsent, gaps, set, last);
                self.proxy = taken.proxy;
                return Reply {
                    left_out: taken.left_out as u64,
                    ..answered(taken.answer)
                };
            }
            ReaderCall::Notify { number } => {
                ffi::reader_notify_new_cache_change(proxy, unsent, SequenceNumber(*number))
            }
            ReaderCall::MarkSent { number } => {
                ffi::reader_mark_change_sent(proxy, unsent, SequenceNumber(*number))
            }
            ReaderCall::RemoveBefore { number } => {
                let before = SequenceNumber(*number);
                ffi::reader_remove_from_unsent_set_all_before(proxy, unsent, before)
            }
            ReaderCall::Gap { number, last } => {
                let (number, last) = (SequenceNumber(*number), SequenceNumber(*last));
                ffi::reader_insert_pending_gap(proxy, gaps, number, last)
            }
            ReaderCall::GapUpTo { end, last } => {
                let (end, last) = (SequenceNumber(*end), SequenceNumber(*last));
                ffi::reader_set_pending_gap_up_to(proxy, gaps, end, last)
            }
            ReaderCall::Request { sample, set } => {
                let (sample, set) = (SequenceNumber(*sample), forms::fragment_set(set));
                ffi::reader_mark_frags_requested(proxy, samples, words, sample, set)
            }
            ReaderCall::FragSent { sample, fragment } => {
                let (sample, fragment) = (SequenceNumber(*sample), FragmentNumber(*fragment));
                ffi::reader_mark_frag_sent(proxy, samples, words, sample, fragment)
            }
        };
        self.proxy = changed.proxy;
        answered(changed.answer)
    }

    /// One that isn't coherent is shown with a cap of 0, which no record has.
    fn record(&self) -> Reader {
        self.view().unwrap_or_else(|| Reader {
            cap: 0,
            ..Reader::new(1).expect("an allowed cap")
        })
    }

    fn next_unsent(&self, from: i64) -> Option<i64> {
        next(ffi::reader_next_unsent_change(
            self.proxy,
            &self.unsent,
            cursor(from),
        ))
    }

    fn next_pending_gap(&self, from: i64) -> Option<i64> {
        next(ffi::reader_next_pending_gap(
            self.proxy,
            &self.gaps,
            cursor(from),
        ))
    }

    fn next_fragment(&self, from: u32) -> Option<(i64, u32)> {
        let from = FragmentCursor { from: from.into() };
        let next = ffi::reader_next_frag_requested(self.proxy, &self.samples, &self.words, from);
        let found = (next.sample.0, next.fragment.0);
        some(next.answer, found)
    }

    fn any_requested(&self) -> bool {
        ffi::reader_repair_frags_requested(self.proxy, &self.samples, &self.words).yes
    }
}

/// A cursor has no negative numbers; it starts at 0.
fn cursor(from: i64) -> Cursor {
    Cursor {
        from: from.max(0) as u64,
    }
}

fn some<T>(answer: ffi::Answer, found: T) -> Option<T> {
    if answer.number == 0 {
        Some(found)
    } else {
        None
    }
}

fn next(next: NextNumber) -> Option<i64> {
    some(next.answer, next.number.0)
}

impl WriterSubject for LentWriter {
    fn call(&mut self, call: &WriterCall) -> Reply {
        let flow = &mut self.flow;
        let told = match call {
            WriterCall::Admit {
                opted_in, bytes, ..
            } => {
                let (store, lens) = (&mut self.store, &mut self.lens);
                let admitted = ffi::writer_admit(flow, store, lens, bytes, *opted_in);
                return Reply {
                    number: admitted.number.0,
                    ..answered(admitted.answer)
                };
            }
            WriterCall::SetAcked { frontier } => {
                let frontier = AckedFrontier {
                    present: frontier.is_some(),
                    acked: SequenceNumber(frontier.unwrap_or(0)),
                };
                ffi::writer_set_acked_frontier(flow, frontier)
            }
            WriterCall::SetSent { frontier } => {
                ffi::writer_set_sent_frontier(flow, SequenceNumber(*frontier))
            }
            WriterCall::Evict { before } => {
                let before = SequenceNumber(*before);
                return answered(ffi::writer_remove_changes_before(flow, before));
            }
        };
        Reply {
            wake: told.yes,
            ..answered(told.answer)
        }
    }

    /// One that isn't coherent is shown with a last of -1, which no record has.
    fn record(&self) -> SendBuffer {
        self.view().unwrap_or_else(|| {
            let mut flow = forms::flow_view(&self.flow);
            flow.last = -1;
            let samples = Default::default();
            SendBuffer { flow, samples }
        })
    }

    fn fetch(&self, number: i64) -> Option<Vec<u8>> {
        let number = SequenceNumber(number);
        let at = ffi::writer_locate(self.flow, self.store.len(), &self.lens, number);
        let end = at.start.checked_add(at.length)?;
        some(at.answer, self.store.get(at.start..end)?.to_vec())
    }

    fn acked_through(&self, number: i64) -> bool {
        ffi::writer_is_acked_through(self.flow, SequenceNumber(number)).yes
    }
}

impl ListSubject for Vec<ReaderHead> {
    fn call(&mut self, call: &ListCall) -> Reply {
        match call {
            ListCall::Match { id, reliable } => {
                let (id, reliable, cap) = (*id, *reliable, 1);
                answered(ffi::list_matched_reader_add(
                    self,
                    Match { id, reliable, cap },
                ))
            }
            ListCall::Depart { id } => answered(ffi::list_matched_reader_remove(self, *id)),
            ListCall::SetAcked { id, acked } => {
                let (id, acked) = (*id, SequenceNumber(*acked));
                answered(ffi::list_set_acked(self, Acked { id, acked }))
            }
            ListCall::Find { id } => {
                let found = ffi::list_matched_reader_lookup(self, *id);
                if found.answer.number == 0 {
                    // The place is the reader's own.
                    assert_eq!(self[found.place], found.head);
                    assert_eq!(found.head.id, *id);
                }
                Reply {
                    number: found.head.acked.0,
                    wake: found.head.reliable,
                    ..answered(found.answer)
                }
            }
            ListCall::Frontier => {
                let front = ffi::list_frontier(self);
                let frontier = front.frontier;
                Reply {
                    number: if frontier.present {
                        frontier.acked.0
                    } else {
                        0
                    },
                    ..answered(front.answer)
                }
            }
        }
    }

    fn record(&self) -> ReaderList {
        forms::slots_view(self)
    }
}
