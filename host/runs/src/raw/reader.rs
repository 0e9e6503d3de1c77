//! The entries on one reader.

use model::{Answer, Reader};
use sintemuno::ffi::{
    self, AckNacked, Changed, Cursor, FragmentCursor, FragmentNumber, NextFragRequested,
    NextNumber, ReaderProxy, SequenceNumber, Taken, Told,
};

use super::{count, damage_room, parts, word, Tally, CALLS_PER_WORLD, INCOHERENT};
use crate::{
    beside::same,
    calls::ReaderCall,
    draw_any::{self, Near},
    forms::{self, LentReader},
    prng::Prng,
};

const WORDS_PER_SAMPLE: usize = 64;

/// Which rooms a call is lent. It tests the proxy whole and these alone.
#[derive(Clone, Copy, PartialEq, Eq)]
pub struct Lends {
    pub unsent: bool,
    pub gaps: bool,
    pub frags: bool,
    /// So many numbers may join: of the unsent room where that is lent, else of
    /// the gap room or the room of samples.
    pub joins: usize,
}

const NONE: Lends = Lends {
    unsent: false,
    gaps: false,
    frags: false,
    joins: 0,
};
pub const UNSENT: Lends = Lends {
    unsent: true,
    ..NONE
};
const GAPS: Lends = Lends { gaps: true, ..NONE };
pub const FRAGS: Lends = Lends {
    frags: true,
    ..NONE
};
pub const UNSENT_AND_GAPS: Lends = Lends {
    unsent: true,
    gaps: true,
    ..NONE
};

pub fn joining(lends: Lends, joins: usize) -> Lends {
    Lends { joins, ..lends }
}

/// The record as far as it is lent, all else empty; `None` if that isn't
/// coherent.
pub fn view(lent: &LentReader, lends: Lends) -> Option<Reader> {
    let proxy = &lent.proxy;
    let counts_fit = proxy.unsent_count <= proxy.unsent_cap
        && proxy.gap_count <= 256
        && proxy.frag_count <= 16
        && proxy.unsent_cap <= 1024;
    if !counts_fit {
        return None;
    }
    let mut part = lent.clone();
    let (unsent_joins, gap_joins) = match lends.unsent {
        true => (lends.joins, 0),
        false => (0, lends.joins),
    };
    if !lends.unsent {
        part.proxy.unsent_count = 0;
        part.unsent = vec![0; proxy.unsent_cap];
    } else if !whole(
        &mut part.unsent,
        proxy.unsent_count,
        proxy.unsent_cap,
        unsent_joins,
    ) {
        return None;
    }
    if !lends.gaps {
        part.proxy.gap_count = 0;
        part.gaps = vec![0; 256];
    } else if !whole(&mut part.gaps, proxy.gap_count, 256, gap_joins) {
        return None;
    }
    if !lends.frags {
        part.proxy.frag_count = 0;
        part.samples = vec![0; 16];
        part.words = vec![0; 1024];
    } else {
        let all_words = part.words.len() == WORDS_PER_SAMPLE * part.samples.len();
        if !all_words || !whole(&mut part.samples, proxy.frag_count, 16, lends.joins) {
            return None;
        }
        part.words.resize(1024, 0);
    }
    part.view()
}

/// A room for `most` numbers that is lent in part, made whole; `false` if it
/// has no place for so many more, or is too long.
fn whole(room: &mut Vec<u64>, count: usize, most: usize, more: usize) -> bool {
    let lent = room.len();
    room.resize(lent.max(most), 0);
    lent <= most && count <= lent && (lent == most || count + more <= lent)
}

/// What was lent, as the changed record fills it; all else as it was.
pub fn form(before: &LentReader, lends: Lends, reader: &Reader) -> LentReader {
    let made = LentReader::form(reader);
    let mut after = before.clone();
    after.proxy.all_acked_before = made.proxy.all_acked_before;
    after.proxy.gap_prefix_end = made.proxy.gap_prefix_end;
    if lends.unsent {
        after.proxy.unsent_count = made.proxy.unsent_count;
        after.unsent = made.unsent;
        after.unsent.truncate(before.unsent.len());
    }
    if lends.gaps {
        after.proxy.gap_count = made.proxy.gap_count;
        after.gaps = made.gaps;
        after.gaps.truncate(before.gaps.len());
    }
    if lends.frags {
        after.proxy.frag_count = made.proxy.frag_count;
        after.samples = made.samples;
        after.samples.truncate(before.samples.len());
        after.words = made.words;
        after.words.truncate(before.words.len());
    }
    after
}

/// What a call answers, and what it leaves of all that there is.
pub fn judged<T: Default>(
    before: &LentReader,
    lends: Lends,
    call: impl FnOnce(&mut Reader) -> Answer<T>,
) -> (ffi::Answer, T, LentReader) {
    let mut reader = match view(before, lends) {
        Some(reader) => reader,
        None => return (INCOHERENT, T::default(), before.clone()),
    };
    let (answer, value) = parts(call(&mut reader));
    if answer.number != 0 {
        return (answer, value, before.clone());
    }
    (answer, value, form(before, lends, &reader))
}

pub fn world(prng: &mut Prng, tally: &mut Tally) -> Result<(), String> {
    let near = Near::new(prng);
    let mut sound = LentReader::form(&draw_any::reader(prng, near));
    for _ in 0..CALLS_PER_WORLD {
        let damaged = prng.one_in(3);
        let mut lent = sound.clone();
        if prng.coin() {
            lend_in_part(prng, &mut lent);
        }
        if damaged {
            damage(prng, near, &mut lent);
        }
        match prng.below(15) {
            0..=7 => changes(prng, near, tally, &mut lent)?,
            8 => takes(prng, tally, &mut lent)?,
            9..=10 => next_numbers(prng, near, tally, &lent)?,
            11..=13 => fragment_questions(prng, tally, &lent)?,
            _ => creation(prng, tally)?,
        }
        if !damaged {
            make_whole(&mut lent);
            sound = lent;
        }
    }
    Ok(())
}

/// The rooms from their start: what is held, and some places more, or none.
pub fn lend_in_part(prng: &mut Prng, lent: &mut LentReader) {
    let mut some = |held: usize, more: u64| held + prng.below(more) as usize;
    lent.unsent.truncate(some(lent.proxy.unsent_count, 5));
    lent.gaps.truncate(some(lent.proxy.gap_count, 5));
    lent.samples.truncate(some(lent.proxy.frag_count, 3));
    lent.words.truncate(WORDS_PER_SAMPLE * lent.samples.len());
}

/// What was not lent is as it was: zeros.
pub fn make_whole(lent: &mut LentReader) {
    lent.unsent.resize(lent.proxy.unsent_cap, 0);
    lent.gaps.resize(256, 0);
    lent.samples.resize(16, 0);
    lent.words.resize(1024, 0);
}

pub fn damage(prng: &mut Prng, near: Near, lent: &mut LentReader) {
    for _ in 0..1 + prng.below(2) {
        let any = |prng: &mut Prng| match prng.coin() {
            true => near.number(prng) as u64,
            false => word(prng),
        };
        let proxy = &mut lent.proxy;
        match prng.below(10) {
            0 => proxy.all_acked_before = SequenceNumber(any(prng) as i64),
            1 => proxy.unsent_cap = any_count(prng, proxy.unsent_cap),
            2 => proxy.unsent_count = any_count(prng, proxy.unsent_count),
            3 => proxy.gap_prefix_end = SequenceNumber(any(prng) as i64),
            4 => proxy.gap_count = any_count(prng, proxy.gap_count),
            5 => proxy.frag_count = any_count(prng, proxy.frag_count),
            6 => damage_room(prng, &mut lent.unsent, any),
            7 => damage_room(prng, &mut lent.gaps, any),
            8 => damage_room(prng, &mut lent.samples, any),
            _ => damage_room(prng, &mut lent.words, word),
        }
    }
}

fn any_count(prng: &mut Prng, count: usize) -> usize {
    match prng.below(3) {
        0 => count.wrapping_add(1),
        1 => count.wrapping_sub(1),
        _ => word(prng) as usize,
    }
}

/// The calls that leave a changed proxy, drawn as for coherent records.
fn changes(
    prng: &mut Prng,
    near: Near,
    tally: &mut Tally,
    lent: &mut LentReader,
) -> Result<(), String> {
    let before = lent.clone();
    let call = draw_any::reader_call(prng, near);
    let (name, got, expected) = match &call {
        ReaderCall::Ack { .. } => return acknowledges(&call, tally, lent),
        ReaderCall::Notify { number } => (
            "reader_notify_new_cache_change",
            ffi::reader_notify_new_cache_change(lent.proxy, &mut lent.unsent, sn(*number)),
            judged(&before, joining(UNSENT, 1), |r| {
                r.notify_new_cache_change(*number)
            }),
        ),
        ReaderCall::MarkSent { number } => (
            "reader_mark_change_sent",
            ffi::reader_mark_change_sent(lent.proxy, &mut lent.unsent, sn(*number)),
            judged(&before, UNSENT, |r| r.mark_change_sent(*number)),
        ),
        ReaderCall::RemoveBefore { number } => (
            "reader_remove_from_unsent_set_all_before",
            ffi::reader_remove_from_unsent_set_all_before(lent.proxy, &mut lent.unsent, sn(*number)),
            judged(&before, UNSENT, |r| {
                r.remove_from_unsent_set_all_before(*number)
            }),
        ),
        ReaderCall::Gap { number, last } => (
            "reader_insert_pending_gap",
            ffi::reader_insert_pending_gap(lent.proxy, &mut lent.gaps, sn(*number), sn(*last)),
            judged(&before, joining(GAPS, 1), |r| {
                r.insert_pending_gap(*number, *last)
            }),
        ),
        ReaderCall::GapUpTo { end, last } => (
            "reader_set_pending_gap_up_to",
            ffi::reader_set_pending_gap_up_to(lent.proxy, &mut lent.gaps, sn(*end), sn(*last)),
            judged(&before, GAPS, |r| r.set_pending_gap_up_to(*end, *last)),
        ),
        ReaderCall::Request { sample, set } => (
            "reader_mark_frags_requested",
            ffi::reader_mark_frags_requested(
                lent.proxy,
                &mut lent.samples,
                &mut lent.words,
                sn(*sample),
                forms::fragment_set(set),
            ),
            judged(&before, joining(FRAGS, 1), |r| {
                r.mark_frags_requested(*sample, set)
            }),
        ),
        ReaderCall::FragSent { sample, fragment } => (
            "reader_mark_frag_sent",
            ffi::reader_mark_frag_sent(
                lent.proxy,
                &mut lent.samples,
                &mut lent.words,
                sn(*sample),
                FragmentNumber(*fragment),
            ),
            judged(&before, FRAGS, |r| r.mark_frag_sent(*sample, *fragment)),
        ),
    };
    count(tally, name, got.answer);
    lent.proxy = got.proxy;
    let (answer, (), after) = expected;
    let proxy = after.proxy;
    same(&(name, &call), got, Changed { answer, proxy })?;
    same(&(name, &call), &*lent, &after)
}

fn sn(number: i64) -> SequenceNumber {
    SequenceNumber(number)
}

fn acknowledges(call: &ReaderCall, tally: &mut Tally, lent: &mut LentReader) -> Result<(), String> {
    let (set, last) = match call {
        ReaderCall::Ack { set, last } => (set, *last),
        _ => return Ok(()),
    };
    let before = lent.clone();
    let (unsent, gaps) = (&mut lent.unsent, &mut lent.gaps);
    let got =
        ffi::reader_handle_ack_nack(lent.proxy, unsent, gaps, forms::number_set(set), sn(last));
    count(tally, "reader_handle_ack_nack", got.answer);
    lent.proxy = got.proxy;
    let asked = set.count.min(256) as usize;
    let lends = joining(UNSENT_AND_GAPS, asked);
    let (answer, left_out, after) = judged(&before, lends, |r| r.handle_ack_nack(set, last));
    let expected = AckNacked {
        answer,
        left_out: left_out as usize,
        proxy: after.proxy,
    };
    same(call, got, expected)?;
    same(call, &*lent, &after)
}

/// `take_unsent` with any room for what is taken.
fn takes(prng: &mut Prng, tally: &mut Tally, lent: &mut LentReader) -> Result<(), String> {
    let before = lent.clone();
    let length = prng.pick(&[0, 1, 2, 3, 8, 2000]);
    let mut out: Vec<u64> = (0..length).map(|_| prng.next()).collect();
    let mut expected_out = out.clone();
    let got = ffi::reader_take_unsent(lent.proxy, &mut lent.unsent, &mut out);
    count(tally, "reader_take_unsent", got.answer);
    lent.proxy = got.proxy;
    let (answer, taken, after) = judged(&before, UNSENT, |r| {
        let taken: Vec<i64> = r.unsent.iter().copied().take(length).collect();
        for number in &taken {
            r.unsent.remove(number);
        }
        Ok(taken)
    });
    for (place, number) in taken.iter().enumerate() {
        expected_out[place] = *number as u64;
    }
    let expected = Taken {
        answer,
        count: taken.len(),
        proxy: after.proxy,
    };
    same(&("take_unsent", length), got, expected)?;
    same(&("take_unsent", length), &*lent, &after)?;
    same(&("take_unsent, out", length), out, expected_out)
}

/// A cursor near the numbers, or anywhere.
pub fn cursor(prng: &mut Prng, near: Near) -> Cursor {
    let from = match prng.below(3) {
        0 => word(prng),
        _ => near.number(prng).max(0) as u64,
    };
    Cursor { from }
}

/// The number found and the cursor past it, or a refusal's zeros.
pub fn next_number(answer: ffi::Answer, number: i64) -> NextNumber {
    let from = if answer.number == 0 {
        number as u64 + 1
    } else {
        0
    };
    NextNumber {
        answer,
        number: sn(number),
        cursor: Cursor { from },
    }
}

fn next_numbers(
    prng: &mut Prng,
    near: Near,
    tally: &mut Tally,
    lent: &LentReader,
) -> Result<(), String> {
    let at = cursor(prng, near);
    // Past the signed numbers there is nothing.
    let from = i64::try_from(at.from).ok();
    let nothing = Err(model::Refusal::NothingThere);
    let unsent = |from: Option<i64>| {
        judged(lent, UNSENT, |r| {
            from.map_or(nothing, |from| r.next_unsent(from))
        })
    };
    let (answer, number, _) = unsent(Some(0));
    let got = ffi::reader_first_unsent_change(lent.proxy, &lent.unsent);
    count(tally, "reader_first_unsent_change", got.answer);
    same(&"first_unsent_change", got, next_number(answer, number))?;

    let (answer, number, _) = unsent(from);
    let got = ffi::reader_next_unsent_change(lent.proxy, &lent.unsent, at);
    count(tally, "reader_next_unsent_change", got.answer);
    let name = ("next_unsent_change", at);
    same(&name, got, next_number(answer, number))?;

    let (answer, number, _) = judged(lent, GAPS, |r| {
        from.map_or(nothing, |from| r.next_pending_gap(from))
    });
    let got = ffi::reader_next_pending_gap(lent.proxy, &lent.gaps, at);
    count(tally, "reader_next_pending_gap", got.answer);
    let name = ("next_pending_gap", at);
    same(&name, got, next_number(answer, number))
}

fn fragment_questions(prng: &mut Prng, tally: &mut Tally, lent: &LentReader) -> Result<(), String> {
    let from = match prng.below(4) {
        0 => word(prng),
        _ => u64::from(draw_any::fragment(prng)),
    };
    let (answer, (sample, fragment), _) = judged(lent, FRAGS, |r| {
        let from = u32::try_from(from).map_err(|_| model::Refusal::NothingThere)?;
        r.next_fragment(from)
    });
    let next = if answer.number == 0 {
        u64::from(fragment) + 1
    } else {
        0
    };
    let expected = NextFragRequested {
        answer,
        sample: sn(sample),
        fragment: FragmentNumber(fragment),
        cursor: FragmentCursor { from: next },
    };
    let got = ffi::reader_next_frag_requested(
        lent.proxy,
        &lent.samples,
        &lent.words,
        FragmentCursor { from },
    );
    count(tally, "reader_next_frag_requested", got.answer);
    same(&("next_frag_requested", from), got, expected)?;

    let (answer, yes, _) = judged(lent, FRAGS, |r| r.any_requested());
    let got = ffi::reader_repair_frags_requested(lent.proxy, &lent.samples, &lent.words);
    count(tally, "reader_repair_frags_requested", got.answer);
    same(&"repair_frags_requested", got, Told { answer, yes })
}

fn creation(prng: &mut Prng, tally: &mut Tally) -> Result<(), String> {
    let cap = word(prng) as usize;
    let got = ffi::reader_new(cap);
    count(tally, "reader_new", got.answer);
    let expected = match Reader::new(cap) {
        Ok(reader) => Changed {
            answer: ffi::Answer::default(),
            proxy: LentReader::form(&reader).proxy,
        },
        Err(refusal) => Changed {
            answer: super::number(refusal),
            proxy: ReaderProxy::default(),
        },
    };
    same(&("reader_new", cap), got, expected)
}
