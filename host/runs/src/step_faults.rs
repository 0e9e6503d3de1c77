//! Faulty steps, to see that the runs catch them: the library's, with one fault
//! in the layer around them.

use sintemuno::ffi::{
    self, AckTold, Answer, Changed, FragmentNumberSet, Match, Numbered, ReaderHead, ReaderProxy,
    SentMany, SequenceNumber, SequenceNumberSet, Told, WriterSendBuffer,
};

use crate::steps::{Flow, List, Out, Room, Sound, Steps, Store};

#[derive(Clone, Copy, PartialEq, Eq, Debug)]
pub enum StepFault {
    MatchStoresNoFrontier,
    RefusedMatchStays,
    FlowAskedLast,
    DepartureStoresNoFrontier,
    AckLeavesTheList,
    AckLeavesTheFlow,
    AckOfAnyHead,
    RefusedAckTaken,
    UnknownBeforeRange,
    UnknownAsks,
    LastReaderNotTold,
    FreePlaceIncoherent,
    RefusedWriteAdmitted,
    OneSentTooFew,
    GapsLikeData,
    RestOfRoomCleared,
}

use StepFault::*;

pub const STEP_FAULTS: [StepFault; 16] = [
    MatchStoresNoFrontier,
    RefusedMatchStays,
    FlowAskedLast,
    DepartureStoresNoFrontier,
    AckLeavesTheList,
    AckLeavesTheFlow,
    AckOfAnyHead,
    RefusedAckTaken,
    UnknownBeforeRange,
    UnknownAsks,
    LastReaderNotTold,
    FreePlaceIncoherent,
    RefusedWriteAdmitted,
    OneSentTooFew,
    GapsLikeData,
    RestOfRoomCleared,
];

pub struct FaultySteps(pub StepFault);

fn refused(answer: Answer) -> Told {
    Told { answer, yes: false }
}

/// Admits whatever the readers are like, and looks at them then.
fn admitted(
    flow: Flow,
    store: Store,
    payload: &[u8],
    opted: bool,
    proxies: &[ReaderProxy],
    unsent: &[u64],
) -> Numbered {
    let Store { bytes, lens } = store;
    let admitted = ffi::writer_admit(flow, bytes, lens, payload, opted);
    if admitted.answer.number != 0 {
        return admitted;
    }
    // Once more, on copies, for what is said of the readers.
    let (mut copies, mut room) = (proxies.to_vec(), unsent.to_vec());
    let (mut copy, mut bytes, mut lens) = (*flow, bytes.to_vec(), lens.to_vec());
    let again = Store {
        bytes: &mut bytes,
        lens: &mut lens,
    };
    let told = Sound.write(&mut copy, again, payload, opted, &mut copies, &mut room);
    match told.answer.number {
        1 => told,
        _ => admitted,
    }
}

impl Steps for FaultySteps {
    fn match_reader(&self, list: List, flow: Flow, m: Match) -> Told {
        match self.0 {
            MatchStoresNoFrontier => {
                let mut copy = *flow;
                Sound.match_reader(list, &mut copy, m)
            }
            // The calls one after the other, with no way back.
            RefusedMatchStays => {
                let answer = ffi::list_matched_reader_add(list, m);
                if answer.number != 0 {
                    return refused(answer);
                }
                let front = ffi::list_frontier(list).frontier;
                ffi::writer_set_acked_frontier(flow, front)
            }
            // What the list says comes before an incoherent flow record's 1.
            FlowAskedLast => {
                let answer = ffi::list_matched_reader_add(&mut list.to_vec(), m);
                if answer.number != 0 {
                    return refused(answer);
                }
                Sound.match_reader(list, flow, m)
            }
            _ => Sound.match_reader(list, flow, m),
        }
    }

    fn depart_reader(&self, list: List, flow: Flow, id: u64) -> Told {
        let mut copy = *flow;
        match self.0 {
            DepartureStoresNoFrontier => Sound.depart_reader(list, &mut copy, id),
            _ => Sound.depart_reader(list, flow, id),
        }
    }

    fn take_ack_nack(
        &self,
        list: List,
        flow: Flow,
        proxy: ReaderProxy,
        rooms: (Room, Room),
        id: u64,
        set: SequenceNumberSet,
    ) -> AckTold {
        let (mut heads, mut copy) = (list.to_vec(), *flow);
        match self.0 {
            AckLeavesTheList => Sound.take_ack_nack(&mut heads, flow, proxy, rooms, id, set),
            AckLeavesTheFlow => Sound.take_ack_nack(list, &mut copy, proxy, rooms, id, set),
            AckOfAnyHead => {
                let own = list.iter_mut().find(|h| h.id == id && id != 0);
                if let Some(head) = own {
                    head.acked = proxy.all_acked_before;
                }
                Sound.take_ack_nack(list, flow, proxy, rooms, id, set)
            }
            RefusedAckTaken => {
                let (mut unsent, mut gaps) = (rooms.0.to_vec(), rooms.1.to_vec());
                let both = (&mut unsent[..], &mut gaps[..]);
                let told = Sound.take_ack_nack(list, flow, proxy, both, id, set).told;
                let last = copy.last;
                let taken = ffi::reader_handle_ack_nack(proxy, rooms.0, rooms.1, set, last);
                AckTold {
                    told,
                    left_out: taken.left_out,
                    proxy: taken.proxy,
                }
            }
            _ => Sound.take_ack_nack(list, flow, proxy, rooms, id, set),
        }
    }

    fn take_nack_frag(
        &self,
        list: &[ReaderHead],
        proxy: ReaderProxy,
        rooms: (Room, Room),
        id: u64,
        number: SequenceNumber,
        set: FragmentNumberSet,
    ) -> Changed {
        let answer = ffi::list_matched_reader_lookup(list, id).answer;
        match self.0 {
            UnknownBeforeRange if answer.number != 0 => Changed { answer, proxy },
            UnknownAsks if answer.number != 0 => {
                let (samples, words) = rooms;
                let asked = ffi::reader_mark_frags_requested(proxy, samples, words, number, set);
                match asked.answer.number {
                    0 => Changed { answer, ..asked },
                    _ => asked,
                }
            }
            _ => Sound.take_nack_frag(list, proxy, rooms, id, number, set),
        }
    }

    fn write(
        &self,
        flow: Flow,
        store: Store,
        payload: &[u8],
        opted: bool,
        proxies: &mut [ReaderProxy],
        unsent: Room,
    ) -> Numbered {
        let free = |proxy: &ReaderProxy| *proxy == ReaderProxy::default();
        let incoherent = Numbered {
            answer: Answer { number: 1, place: 0 },
            number: SequenceNumber(0),
        };
        match self.0 {
            LastReaderNotTold => {
                let was = (proxies.last().copied(), unsent.to_vec());
                let stretch = unsent.len() / proxies.len().max(1);
                let got = Sound.write(flow, store, payload, opted, proxies, unsent);
                if let (Some(last), Some(proxy)) = (proxies.last_mut(), was.0) {
                    *last = proxy;
                    let start = stretch * (proxies.len() - 1);
                    unsent[start..].copy_from_slice(&was.1[start..]);
                }
                got
            }
            FreePlaceIncoherent if proxies.iter().any(free) => incoherent,
            RefusedWriteAdmitted => admitted(flow, store, payload, opted, proxies, unsent),
            _ => Sound.write(flow, store, payload, opted, proxies, unsent),
        }
    }

    fn send_many(
        &self,
        flow: WriterSendBuffer,
        store: (usize, &[u64]),
        proxy: ReaderProxy,
        unsent: Room,
        out: Out,
    ) -> SentMany {
        let Out {
            numbers,
            starts,
            lengths,
        } = out;
        let less = match self.0 {
            OneSentTooFew => numbers.len().max(1) - 1,
            _ => numbers.len(),
        };
        let lent = Out {
            numbers: &mut numbers[..less],
            starts: &mut *starts,
            lengths: &mut *lengths,
        };
        let got = Sound.send_many(flow, store, proxy, unsent, lent);
        match self.0 {
            GapsLikeData => {
                let sent = &mut starts[..got.count];
                sent.iter_mut()
                    .filter(|s| **s == u64::MAX)
                    .for_each(|s| *s = 0);
            }
            RestOfRoomCleared => numbers[got.count..].fill(0),
            _ => {}
        }
        got
    }
}
