//! The library's steps as a subject, so that faulty ones can be tried too.

use sintemuno::ffi::{
    self, AckTold, Changed, FragmentNumberSet, Match, Numbered, ReaderHead, ReaderProxy, SentMany,
    SequenceNumber, SequenceNumberSet, Told, WriterSendBuffer,
};

// What a step is lent.
pub type List<'a> = &'a mut [ReaderHead];
pub type Flow<'a> = &'a mut WriterSendBuffer;
pub type Room<'a> = &'a mut [u64];

/// The store with its lengths.
pub struct Store<'a> {
    pub bytes: &'a mut [u8],
    pub lens: &'a mut [u64],
}

/// The rooms of the send step for many.
pub struct Out<'a> {
    pub numbers: &'a mut [u64],
    pub starts: &'a mut [u64],
    pub lengths: &'a mut [u64],
}

pub trait Steps {
    fn match_reader(&self, list: List, flow: Flow, m: Match) -> Told {
        ffi::match_reader(list, flow, m)
    }

    fn depart_reader(&self, list: List, flow: Flow, id: u64) -> Told {
        ffi::depart_reader(list, flow, id)
    }

    fn take_ack_nack(
        &self,
        list: List,
        flow: Flow,
        proxy: ReaderProxy,
        rooms: (Room, Room),
        id: u64,
        set: SequenceNumberSet,
    ) -> AckTold {
        ffi::take_ack_nack(list, flow, proxy, rooms.0, rooms.1, id, set)
    }

    fn take_nack_frag(
        &self,
        list: &[ReaderHead],
        proxy: ReaderProxy,
        rooms: (Room, Room),
        id: u64,
        number: SequenceNumber,
        set: FragmentNumberSet,
    ) -> Changed {
        ffi::take_nack_frag(list, proxy, rooms.0, rooms.1, id, number, set)
    }

    fn write(
        &self,
        flow: Flow,
        store: Store,
        payload: &[u8],
        opted: bool,
        proxies: &mut [ReaderProxy],
        unsent: Room,
    ) -> Numbered {
        let Store { bytes, lens } = store;
        ffi::write(flow, bytes, lens, payload, opted, proxies, unsent)
    }

    fn send_many(
        &self,
        flow: WriterSendBuffer,
        store: (usize, &[u64]),
        proxy: ReaderProxy,
        unsent: Room,
        out: Out,
    ) -> SentMany {
        let (room, lens) = store;
        let Out {
            numbers,
            starts,
            lengths,
        } = out;
        ffi::send_many(flow, room, lens, proxy, unsent, numbers, starts, lengths)
    }
}

/// The library itself.
pub struct Sound;

impl Steps for Sound {}
