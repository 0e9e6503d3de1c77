//! Document 01's examples by name.

use model::*;

const LAST_SAMPLE: i64 = numbers::LAST_SAMPLE;

fn reader(cap: usize, acked: i64, unsent: &[i64]) -> Reader {
    let mut reader = Reader::new(cap).unwrap();
    reader.acked = acked;
    reader.unsent = unsent.iter().copied().collect();
    reader
}

/// The start of a1 to a4, with last 5.
fn start() -> Reader {
    reader(8, 3, &[4])
}

fn set(base: i64, members: &[i64]) -> NumberSet {
    NumberSet::of(base, members).unwrap()
}

#[test]
fn a1_base_is_the_first_unacknowledged() {
    let mut r = start();
    assert_eq!(r.handle_ack_nack(&set(6, &[]), 5), Ok(0));
    assert_eq!(r, reader(8, 6, &[]));
}

#[test]
fn a2_base_above_last_plus_1() {
    let mut r = start();
    let answer = r.handle_ack_nack(&set(7, &[]), 5);
    assert_eq!(answer, Err(Refusal::BaseAboveLast));
    assert_eq!(r, start());
}

#[test]
fn a3_late_is_cut_at_acked_and_at_last() {
    let mut r = start();
    assert_eq!(r.handle_ack_nack(&set(2, &[2, 4, 5, 6]), 5), Ok(0));
    assert_eq!(r, reader(8, 3, &[4, 5]));
}

#[test]
fn a4_same_base_adds() {
    let mut r = start();
    assert_eq!(r.handle_ack_nack(&set(3, &[3, 5]), 5), Ok(0));
    assert_eq!(r, reader(8, 3, &[3, 4, 5]));
}

#[test]
fn a5_base_0_counts_as_1() {
    let mut r = Reader::new(8).unwrap();
    assert_eq!(r.handle_ack_nack(&set(0, &[]), 0), Ok(0));
    assert_eq!(r, reader(8, 1, &[]));
}

#[test]
fn a6_left_out_at_the_cap() {
    let mut r = reader(2, 1, &[1]);
    assert_eq!(r.handle_ack_nack(&set(1, &[2, 3, 4]), 4), Ok(2));
    assert_eq!(r, reader(2, 1, &[1, 2]));
}

#[test]
fn a7_new_number_pushes_out_the_smallest() {
    let mut r = reader(2, 0, &[1, 2]);
    assert_eq!(r.notify_new_cache_change(3), Ok(()));
    assert_eq!(r, reader(2, 0, &[2, 3]));
}

#[test]
fn s1_bit_order() {
    let mut words = [0; 8];
    words[0] = 0xA000_0000;
    let set = NumberSet {
        base: 10,
        count: 3,
        words,
    };
    assert_eq!(set.members(), vec![10, 12]);
}

#[test]
fn s3_256_bits_pass_257_do_not() {
    let mut all = NumberSet {
        base: 1,
        count: 256,
        words: [u32::MAX; 8],
    };
    let mut r = Reader::new(1024).unwrap();
    assert_eq!(r.handle_ack_nack(&all, 300), Ok(0));
    assert!(r.unsent.iter().copied().eq(1..=256));
    all.count = 257;
    assert_eq!(r.handle_ack_nack(&all, 300), Err(Refusal::SetTooLong));
}

fn ask(r: &mut Reader, sample: i64, base: u32, members: &[u32]) -> Answer<()> {
    r.mark_frags_requested(sample, &FragmentSet::of(base, members).unwrap())
}

#[test]
fn f1_smallest_sample_first() {
    let mut r = Reader::new(8).unwrap();
    ask(&mut r, 9, 1, &[1, 3]).unwrap();
    ask(&mut r, 7, 2, &[2]).unwrap();
    assert_eq!(r.next_fragment(0), Ok((7, 2)));
    r.mark_frag_sent(7, 2).unwrap();
    assert_eq!(r.next_fragment(0), Ok((9, 1)));
}

#[test]
fn f2_an_empty_request_is_no_entry() {
    let mut r = Reader::new(8).unwrap();
    ask(&mut r, 4, 1, &[]).unwrap();
    ask(&mut r, 9, 2, &[2]).unwrap();
    assert_eq!(r.next_fragment(0), Ok((9, 2)));
}

#[test]
fn f3_4096_passes_4097_does_not() {
    let mut r = Reader::new(8).unwrap();
    assert_eq!(ask(&mut r, 1, 4096, &[4096]), Ok(()));
    assert_eq!(r.next_fragment(0), Ok((1, 4096)));
    let before = r.clone();
    assert_eq!(ask(&mut r, 1, 4097, &[4097]), Err(Refusal::OutOfRange));
    assert_eq!(
        ask(&mut r, 1, 4096, &[4096, 4097]),
        Err(Refusal::OutOfRange)
    );
    assert_eq!(r, before);
}

fn buffer(window: u64, backlog: u64, retain: u64, slots: u64) -> SendBuffer {
    let kind = Kind {
        reliable: true,
        builtin: false,
        volatile: true,
    };
    let limits = Limits {
        window,
        backlog,
        retain,
        slots,
        slot_bytes: 16,
    };
    SendBuffer::new(kind, limits).unwrap()
}

#[test]
fn w1_window_counts_the_first_unacknowledged() {
    let mut b = buffer(2, 8, 4, 4);
    b.flow.set_acked_frontier(Some(1)).unwrap();
    assert_eq!(b.admit(false, b"one"), Ok(1));
    assert_eq!(b.flow.set_sent_frontier(1), Ok(true));
    assert_eq!(b.admit(false, b"two"), Ok(2));
    assert_eq!(b.admit(false, b"three"), Err(Refusal::WouldBlock));
    assert_eq!(b.get(1), Ok(&b"one"[..]));
    assert_eq!(b.get(3), Err(Refusal::NothingThere));
}

#[test]
fn the_last_number_of_all() {
    let mut b = buffer(2, 8, 1, 1);
    b.flow.last = LAST_SAMPLE - 1;
    b.flow.first = LAST_SAMPLE;
    b.flow.sent = LAST_SAMPLE - 1;
    assert_eq!(b.admit(false, b""), Ok(LAST_SAMPLE));
    assert_eq!(b.admit(false, b""), Err(Refusal::NumbersUsedUp));
    assert_eq!(b.admit(false, &[0; 17]), Err(Refusal::PayloadTooLong));
}

#[test]
fn a_clean_round_settles_everything() {
    let mut writer = Writer::new(buffer(9, 9, 4, 4), 2).unwrap();
    writer.match_reader(1, true, 8).unwrap();
    let mut end = ModelReader::default();
    for bytes in [b"a", b"b", b"c"] {
        writer.write(false, bytes).unwrap();
    }
    writer.buffer.evict_before(2).unwrap();
    other_end::clean_round(&mut writer, 1, &mut end).unwrap();
    assert_eq!(end.base(), 4);
    assert_eq!(writer.buffer.flow.acked, 4);
    assert!(writer.records[&1].unsent.is_empty());
}
