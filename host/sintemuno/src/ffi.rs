//! The proved library's entry points, on proxies and rooms that may hold
//! anything, as safe functions. All of the crate's unsafe code is here.
//!
//! Why they are safe: an entry takes any numbers and any lengths, reads and
//! writes nothing outside of the slices it is lent, returns, and keeps nothing
//! (proved). What it asks of its caller, a slice and two references to two
//! different things, is what Rust's own slices and references are.
#![allow(unsafe_code)]

mod entries;
mod types;

pub use types::*;

// one reader

pub fn reader_new(cap: usize) -> Changed {
    unsafe { entries::sintemuno_reader_new(cap) }
}

pub fn reader_first_unsent_change(proxy: ReaderProxy, unsent: &[u64]) -> NextNumber {
    unsafe { entries::sintemuno_reader_first_unsent_change(proxy, unsent.as_ptr(), unsent.len()) }
}

pub fn reader_next_unsent_change(proxy: ReaderProxy, unsent: &[u64], at: Cursor) -> NextNumber {
    unsafe {
        entries::sintemuno_reader_next_unsent_change(proxy, unsent.as_ptr(), unsent.len(), at)
    }
}

pub fn reader_notify_new_cache_change(
    proxy: ReaderProxy,
    unsent: &mut [u64],
    number: SequenceNumber,
) -> Changed {
    unsafe {
        entries::sintemuno_reader_notify_new_cache_change(
            proxy,
            unsent.as_mut_ptr(),
            unsent.len(),
            number,
        )
    }
}

pub fn reader_mark_change_sent(
    proxy: ReaderProxy,
    unsent: &mut [u64],
    number: SequenceNumber,
) -> Changed {
    unsafe {
        entries::sintemuno_reader_mark_change_sent(proxy, unsent.as_mut_ptr(), unsent.len(), number)
    }
}

pub fn reader_remove_from_unsent_set_all_before(
    proxy: ReaderProxy,
    unsent: &mut [u64],
    before: SequenceNumber,
) -> Changed {
    unsafe {
        entries::sintemuno_reader_remove_from_unsent_set_all_before(
            proxy,
            unsent.as_mut_ptr(),
            unsent.len(),
            before,
        )
    }
}

pub fn reader_take_unsent(proxy: ReaderProxy, unsent: &mut [u64], out: &mut [u64]) -> Taken {
    unsafe {
        entries::sintemuno_reader_take_unsent(
            proxy,
            unsent.as_mut_ptr(),
            unsent.len(),
            out.as_mut_ptr(),
            out.len(),
        )
    }
}

pub fn reader_handle_ack_nack(
    proxy: ReaderProxy,
    unsent: &mut [u64],
    gaps: &mut [u64],
    set: SequenceNumberSet,
    last: SequenceNumber,
) -> AckNacked {
    unsafe {
        entries::sintemuno_reader_handle_ack_nack(
            proxy,
            unsent.as_mut_ptr(),
            unsent.len(),
            gaps.as_mut_ptr(),
            gaps.len(),
            set,
            last,
        )
    }
}

pub fn reader_insert_pending_gap(
    proxy: ReaderProxy,
    gaps: &mut [u64],
    number: SequenceNumber,
    last: SequenceNumber,
) -> Changed {
    unsafe {
        entries::sintemuno_reader_insert_pending_gap(
            proxy,
            gaps.as_mut_ptr(),
            gaps.len(),
            number,
            last,
        )
    }
}

pub fn reader_set_pending_gap_up_to(
    proxy: ReaderProxy,
    gaps: &mut [u64],
    end: SequenceNumber,
    last: SequenceNumber,
) -> Changed {
    unsafe {
        entries::sintemuno_reader_set_pending_gap_up_to(
            proxy,
            gaps.as_mut_ptr(),
            gaps.len(),
            end,
            last,
        )
    }
}

pub fn reader_next_pending_gap(proxy: ReaderProxy, gaps: &[u64], at: Cursor) -> NextNumber {
    unsafe { entries::sintemuno_reader_next_pending_gap(proxy, gaps.as_ptr(), gaps.len(), at) }
}

pub fn reader_mark_frags_requested(
    proxy: ReaderProxy,
    samples: &mut [u64],
    words: &mut [u64],
    number: SequenceNumber,
    set: FragmentNumberSet,
) -> Changed {
    unsafe {
        entries::sintemuno_reader_mark_frags_requested(
            proxy,
            samples.as_mut_ptr(),
            samples.len(),
            words.as_mut_ptr(),
            words.len(),
            number,
            set,
        )
    }
}

pub fn reader_mark_frag_sent(
    proxy: ReaderProxy,
    samples: &mut [u64],
    words: &mut [u64],
    number: SequenceNumber,
    fragment: FragmentNumber,
) -> Changed {
    unsafe {
        entries::sintemuno_reader_mark_frag_sent(
            proxy,
            samples.as_mut_ptr(),
            samples.len(),
            words.as_mut_ptr(),
            words.len(),
            number,
            fragment,
        )
    }
}

pub fn reader_next_frag_requested(
    proxy: ReaderProxy,
    samples: &[u64],
    words: &[u64],
    at: FragmentCursor,
) -> NextFragRequested {
    unsafe {
        entries::sintemuno_reader_next_frag_requested(
            proxy,
            samples.as_ptr(),
            samples.len(),
            words.as_ptr(),
            words.len(),
            at,
        )
    }
}

pub fn reader_repair_frags_requested(proxy: ReaderProxy, samples: &[u64], words: &[u64]) -> Told {
    unsafe {
        entries::sintemuno_reader_repair_frags_requested(
            proxy,
            samples.as_ptr(),
            samples.len(),
            words.as_ptr(),
            words.len(),
        )
    }
}

// sets

pub fn set_of_numbers(base: SequenceNumber, numbers: &[u64]) -> WrittenNumbers {
    unsafe { entries::sintemuno_set_of_numbers(base, numbers.as_ptr(), numbers.len()) }
}

pub fn set_list_members(set: SequenceNumberSet, out: &mut [u64]) -> Listed {
    unsafe { entries::sintemuno_set_list_members(set, out.as_mut_ptr(), out.len()) }
}

pub fn set_next_member(set: SequenceNumberSet, at: Cursor) -> NextNumber {
    unsafe { entries::sintemuno_set_next_member(set, at) }
}

pub fn fragment_set_of_numbers(base: FragmentNumber, numbers: &[u64]) -> WrittenFragments {
    unsafe { entries::sintemuno_fragment_set_of_numbers(base, numbers.as_ptr(), numbers.len()) }
}

pub fn fragment_set_list_members(set: FragmentNumberSet, out: &mut [u64]) -> Listed {
    unsafe { entries::sintemuno_fragment_set_list_members(set, out.as_mut_ptr(), out.len()) }
}

pub fn fragment_set_next_member(set: FragmentNumberSet, at: FragmentCursor) -> NextFragment {
    unsafe { entries::sintemuno_fragment_set_next_member(set, at) }
}

// the send buffer

pub fn writer_new(kind: Kind, limits: Limits) -> Moved {
    unsafe { entries::sintemuno_writer_new(kind, limits) }
}

pub fn writer_has_room(flow: WriterSendBuffer, opted: bool) -> Told {
    unsafe { entries::sintemuno_writer_has_room(flow, opted) }
}

pub fn writer_admit(
    flow: &mut WriterSendBuffer,
    store: &mut [u8],
    lens: &mut [u64],
    payload: &[u8],
    opted: bool,
) -> Numbered {
    unsafe {
        entries::sintemuno_writer_admit(
            flow,
            store.as_mut_ptr(),
            store.len(),
            lens.as_mut_ptr(),
            lens.len(),
            payload.as_ptr(),
            payload.len(),
            opted,
        )
    }
}

pub fn writer_locate(
    flow: WriterSendBuffer,
    room: usize,
    lens: &[u64],
    number: SequenceNumber,
) -> Located {
    unsafe { entries::sintemuno_writer_locate(flow, room, lens.as_ptr(), lens.len(), number) }
}

pub fn writer_set_acked_frontier(flow: &mut WriterSendBuffer, frontier: AckedFrontier) -> Told {
    unsafe { entries::sintemuno_writer_set_acked_frontier(flow, frontier) }
}

pub fn writer_set_sent_frontier(flow: &mut WriterSendBuffer, number: SequenceNumber) -> Told {
    unsafe { entries::sintemuno_writer_set_sent_frontier(flow, number) }
}

pub fn writer_remove_changes_before(flow: &mut WriterSendBuffer, before: SequenceNumber) -> Answer {
    unsafe { entries::sintemuno_writer_remove_changes_before(flow, before) }
}

pub fn writer_is_acked_through(flow: WriterSendBuffer, number: SequenceNumber) -> Told {
    unsafe { entries::sintemuno_writer_is_acked_through(flow, number) }
}

pub fn writer_first_change_sequence_number(flow: WriterSendBuffer) -> Numbered {
    unsafe { entries::sintemuno_writer_first_change_sequence_number(flow) }
}

pub fn writer_last_change_sequence_number(flow: WriterSendBuffer) -> Numbered {
    unsafe { entries::sintemuno_writer_last_change_sequence_number(flow) }
}

// the reader list

pub fn list_frontier(list: &[ReaderHead]) -> Front {
    unsafe { entries::sintemuno_list_frontier(list.as_ptr(), list.len()) }
}

pub fn list_matched_reader_lookup(list: &[ReaderHead], id: u64) -> Found {
    unsafe { entries::sintemuno_list_matched_reader_lookup(list.as_ptr(), list.len(), id) }
}

pub fn list_matched_reader_add(list: &mut [ReaderHead], m: Match) -> Answer {
    unsafe { entries::sintemuno_list_matched_reader_add(list.as_mut_ptr(), list.len(), m) }
}

pub fn list_matched_reader_remove(list: &mut [ReaderHead], id: u64) -> Answer {
    unsafe { entries::sintemuno_list_matched_reader_remove(list.as_mut_ptr(), list.len(), id) }
}

pub fn list_set_acked(list: &mut [ReaderHead], a: Acked) -> Answer {
    unsafe { entries::sintemuno_list_set_acked(list.as_mut_ptr(), list.len(), a) }
}

// the steps

pub fn match_reader(list: &mut [ReaderHead], flow: &mut WriterSendBuffer, m: Match) -> Told {
    unsafe { entries::sintemuno_match_reader(list.as_mut_ptr(), list.len(), flow, m) }
}

pub fn depart_reader(list: &mut [ReaderHead], flow: &mut WriterSendBuffer, id: u64) -> Told {
    unsafe { entries::sintemuno_depart_reader(list.as_mut_ptr(), list.len(), flow, id) }
}

pub fn take_ack_nack(
    list: &mut [ReaderHead],
    flow: &mut WriterSendBuffer,
    proxy: ReaderProxy,
    unsent: &mut [u64],
    gaps: &mut [u64],
    id: u64,
    set: SequenceNumberSet,
) -> AckTold {
    unsafe {
        entries::sintemuno_take_ack_nack(
            list.as_mut_ptr(),
            list.len(),
            flow,
            proxy,
            unsent.as_mut_ptr(),
            unsent.len(),
            gaps.as_mut_ptr(),
            gaps.len(),
            id,
            set,
        )
    }
}

pub fn take_nack_frag(
    list: &[ReaderHead],
    proxy: ReaderProxy,
    samples: &mut [u64],
    words: &mut [u64],
    id: u64,
    number: SequenceNumber,
    set: FragmentNumberSet,
) -> Changed {
    unsafe {
        entries::sintemuno_take_nack_frag(
            list.as_ptr(),
            list.len(),
            proxy,
            samples.as_mut_ptr(),
            samples.len(),
            words.as_mut_ptr(),
            words.len(),
            id,
            number,
            set,
        )
    }
}

pub fn write(
    flow: &mut WriterSendBuffer,
    store: &mut [u8],
    lens: &mut [u64],
    payload: &[u8],
    opted: bool,
    proxies: &mut [ReaderProxy],
    unsent: &mut [u64],
) -> Numbered {
    unsafe {
        entries::sintemuno_write(
            flow,
            store.as_mut_ptr(),
            store.len(),
            lens.as_mut_ptr(),
            lens.len(),
            payload.as_ptr(),
            payload.len(),
            opted,
            proxies.as_mut_ptr(),
            proxies.len(),
            unsent.as_mut_ptr(),
            unsent.len(),
        )
    }
}

pub fn send_first(flow: WriterSendBuffer, proxy: ReaderProxy, unsent: &mut [u64]) -> Sent {
    unsafe { entries::sintemuno_send_first(flow, proxy, unsent.as_mut_ptr(), unsent.len()) }
}

#[allow(clippy::too_many_arguments)]
pub fn send_many(
    flow: WriterSendBuffer,
    room: usize,
    lens: &[u64],
    proxy: ReaderProxy,
    unsent: &mut [u64],
    numbers: &mut [u64],
    starts: &mut [u64],
    lengths: &mut [u64],
) -> SentMany {
    unsafe {
        entries::sintemuno_send_many(
            flow,
            room,
            lens.as_ptr(),
            lens.len(),
            proxy,
            unsent.as_mut_ptr(),
            unsent.len(),
            numbers.as_mut_ptr(),
            numbers.len(),
            starts.as_mut_ptr(),
            starts.len(),
            lengths.as_mut_ptr(),
            lengths.len(),
        )
    }
}
