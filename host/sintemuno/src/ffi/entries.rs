//! The entry points as `include/sintemuno.h` declares them.

use super::types::*;

extern "C" {
    pub fn sintemuno_reader_new(cap: usize) -> Changed;
    pub fn sintemuno_reader_first_unsent_change(
        proxy: ReaderProxy,
        unsent: *const u64,
        unsent_len: usize,
    ) -> NextNumber;
    pub fn sintemuno_reader_next_unsent_change(
        proxy: ReaderProxy,
        unsent: *const u64,
        unsent_len: usize,
        at: Cursor,
    ) -> NextNumber;
    pub fn sintemuno_reader_notify_new_cache_change(
        proxy: ReaderProxy,
        unsent: *mut u64,
        unsent_len: usize,
        number: SequenceNumber,
    ) -> Changed;
    pub fn sintemuno_reader_mark_change_sent(
        proxy: ReaderProxy,
        unsent: *mut u64,
        unsent_len: usize,
        number: SequenceNumber,
    ) -> Changed;
    pub fn sintemuno_reader_remove_from_unsent_set_all_before(
        proxy: ReaderProxy,
        unsent: *mut u64,
        unsent_len: usize,
        before: SequenceNumber,
    ) -> Changed;
    pub fn sintemuno_reader_take_unsent(
        proxy: ReaderProxy,
        unsent: *mut u64,
        unsent_len: usize,
        out: *mut u64,
        out_len: usize,
    ) -> Taken;
    pub fn sintemuno_reader_handle_ack_nack(
        proxy: ReaderProxy,
        unsent: *mut u64,
        unsent_len: usize,
        gaps: *mut u64,
        gaps_len: usize,
        set: SequenceNumberSet,
        last: SequenceNumber,
    ) -> AckNacked;
    pub fn sintemuno_reader_insert_pending_gap(
        proxy: ReaderProxy,
        gaps: *mut u64,
        gaps_len: usize,
        number: SequenceNumber,
        last: SequenceNumber,
    ) -> Changed;
    pub fn sintemuno_reader_set_pending_gap_up_to(
        proxy: ReaderProxy,
        gaps: *mut u64,
        gaps_len: usize,
        end: SequenceNumber,
        last: SequenceNumber,
    ) -> Changed;
    pub fn sintemuno_reader_next_pending_gap(
        proxy: ReaderProxy,
        gaps: *const u64,
        gaps_len: usize,
        at: Cursor,
    ) -> NextNumber;
    pub fn sintemuno_reader_mark_frags_requested(
        proxy: ReaderProxy,
        samples: *mut u64,
        samples_len: usize,
        words: *mut u64,
        words_len: usize,
        number: SequenceNumber,
        set: FragmentNumberSet,
    ) -> Changed;
    pub fn sintemuno_reader_mark_frag_sent(
        proxy: ReaderProxy,
        samples: *mut u64,
        samples_len: usize,
        words: *mut u64,
        words_len: usize,
        number: SequenceNumber,
        fragment: FragmentNumber,
    ) -> Changed;
    pub fn sintemuno_reader_next_frag_requested(
        proxy: ReaderProxy,
        samples: *const u64,
        samples_len: usize,
        words: *const u64,
        words_len: usize,
        at: FragmentCursor,
    ) -> NextFragRequested;
    pub fn sintemuno_reader_repair_frags_requested(
        proxy: ReaderProxy,
        samples: *const u64,
        samples_len: usize,
        words: *const u64,
        words_len: usize,
    ) -> Told;
    pub fn sintemuno_set_of_numbers(
        base: SequenceNumber,
        numbers: *const u64,
        numbers_len: usize,
    ) -> WrittenNumbers;
    pub fn sintemuno_set_list_members(
        set: SequenceNumberSet,
        out: *mut u64,
        out_len: usize,
    ) -> Listed;
    pub fn sintemuno_set_next_member(set: SequenceNumberSet, at: Cursor) -> NextNumber;
    pub fn sintemuno_fragment_set_of_numbers(
        base: FragmentNumber,
        numbers: *const u64,
        numbers_len: usize,
    ) -> WrittenFragments;
    pub fn sintemuno_fragment_set_list_members(
        set: FragmentNumberSet,
        out: *mut u64,
        out_len: usize,
    ) -> Listed;
    pub fn sintemuno_fragment_set_next_member(
        set: FragmentNumberSet,
        at: FragmentCursor,
    ) -> NextFragment;
    pub fn sintemuno_writer_new(kind: Kind, limits: Limits) -> Moved;
    pub fn sintemuno_writer_has_room(flow: WriterSendBuffer, opted: bool) -> Told;
    pub fn sintemuno_writer_admit(
        flow: *mut WriterSendBuffer,
        store: *mut u8,
        store_len: usize,
        lens: *mut u64,
        lens_len: usize,
        payload: *const u8,
        payload_len: usize,
        opted: bool,
    ) -> Numbered;
    pub fn sintemuno_writer_locate(
        flow: WriterSendBuffer,
        room: usize,
        lens: *const u64,
        lens_len: usize,
        number: SequenceNumber,
    ) -> Located;
    pub fn sintemuno_writer_set_acked_frontier(
        flow: *mut WriterSendBuffer,
        frontier: AckedFrontier,
    ) -> Told;
    pub fn sintemuno_writer_set_sent_frontier(
        flow: *mut WriterSendBuffer,
        number: SequenceNumber,
    ) -> Told;
    pub fn sintemuno_writer_remove_changes_before(
        flow: *mut WriterSendBuffer,
        before: SequenceNumber,
    ) -> Answer;
    pub fn sintemuno_writer_is_acked_through(
        flow: WriterSendBuffer,
        number: SequenceNumber,
    ) -> Told;
    pub fn sintemuno_writer_first_change_sequence_number(flow: WriterSendBuffer) -> Numbered;
    pub fn sintemuno_writer_last_change_sequence_number(flow: WriterSendBuffer) -> Numbered;
    pub fn sintemuno_list_frontier(list: *const ReaderHead, list_len: usize) -> Front;
    pub fn sintemuno_list_matched_reader_lookup(
        list: *const ReaderHead,
        list_len: usize,
        id: u64,
    ) -> Found;
    pub fn sintemuno_list_matched_reader_add(
        list: *mut ReaderHead,
        list_len: usize,
        m: Match,
    ) -> Answer;
    pub fn sintemuno_list_matched_reader_remove(
        list: *mut ReaderHead,
        list_len: usize,
        id: u64,
    ) -> Answer;
    pub fn sintemuno_list_set_acked(list: *mut ReaderHead, list_len: usize, a: Acked) -> Answer;
    pub fn sintemuno_send_first(
        flow: WriterSendBuffer,
        proxy: ReaderProxy,
        unsent: *mut u64,
        unsent_len: usize,
    ) -> Sent;
    pub fn sintemuno_send_many(
        flow: WriterSendBuffer,
        room: usize,
        lens: *const u64,
        lens_len: usize,
        proxy: ReaderProxy,
        unsent: *mut u64,
        unsent_len: usize,
        numbers: *mut u64,
        numbers_len: usize,
        starts: *mut u64,
        starts_len: usize,
        lengths: *mut u64,
        lengths_len: usize,
    ) -> SentMany;
    pub fn sintemuno_match_reader(
        list: *mut ReaderHead,
        list_len: usize,
        flow: *mut WriterSendBuffer,
        m: Match,
    ) -> Told;
    pub fn sintemuno_depart_reader(
        list: *mut ReaderHead,
        list_len: usize,
        flow: *mut WriterSendBuffer,
        id: u64,
    ) -> Told;
    pub fn sintemuno_take_ack_nack(
        list: *mut ReaderHead,
        list_len: usize,
        flow: *mut WriterSendBuffer,
        proxy: ReaderProxy,
        unsent: *mut u64,
        unsent_len: usize,
        gaps: *mut u64,
        gaps_len: usize,
        id: u64,
        set: SequenceNumberSet,
    ) -> AckTold;
    pub fn sintemuno_take_nack_frag(
        list: *const ReaderHead,
        list_len: usize,
        proxy: ReaderProxy,
        samples: *mut u64,
        samples_len: usize,
        words: *mut u64,
        words_len: usize,
        id: u64,
        number: SequenceNumber,
        set: FragmentNumberSet,
    ) -> Changed;
    pub fn sintemuno_write(
        flow: *mut WriterSendBuffer,
        store: *mut u8,
        store_len: usize,
        lens: *mut u64,
        lens_len: usize,
        payload: *const u8,
        payload_len: usize,
        opted: bool,
        proxies: *mut ReaderProxy,
        proxies_len: usize,
        unsent: *mut u64,
        unsent_len: usize,
    ) -> Numbered;
}
