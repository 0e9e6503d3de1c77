//! The entries on the flow record and the store, and the send step.

use model::{Answer, Flow, Refusal, SendBuffer};
use sintemuno::ffi::{
    self, AckedFrontier, Located, Moved, Numbered, Sent, SequenceNumber, Told, WriterSendBuffer,
};

use super::{count, damage_room, number, parts, reader, word, Tally, CALLS_PER_WORLD, INCOHERENT};
use crate::{
    beside::same,
    calls::WriterCall,
    draw_any::{self, Near},
    draw_list,
    forms::{self, LentReader, LentWriter},
    prng::Prng,
};

pub fn world(prng: &mut Prng, tally: &mut Tally) -> Result<(), String> {
    let near = Near::new(prng);
    let mut sound = LentWriter::form(&draw_any::send_buffer(prng, near));
    for _ in 0..CALLS_PER_WORLD {
        let damaged = prng.one_in(3);
        let mut lent = sound.clone();
        if damaged {
            damage(prng, near, &mut lent);
        }
        match prng.below(10) {
            0..=4 => changes(prng, near, tally, &mut lent)?,
            5 => locates(prng, near, tally, &lent)?,
            6..=7 => questions(prng, near, tally, &lent.flow)?,
            8 => sends(prng, near, tally, &lent.flow)?,
            _ => creation(prng, tally)?,
        }
        if !damaged {
            sound = lent;
        }
    }
    Ok(())
}

pub fn damage(prng: &mut Prng, near: Near, lent: &mut LentWriter) {
    for _ in 0..1 + prng.below(2) {
        let any = |prng: &mut Prng| match prng.coin() {
            true => SequenceNumber(near.number(prng)),
            false => SequenceNumber(word(prng) as i64),
        };
        let flow = &mut lent.flow;
        match prng.below(12) {
            0 => flow.last = any(prng),
            1 => flow.first = any(prng),
            2 => flow.sent = any(prng),
            3 => flow.acked = any(prng),
            4 => flow.limits.window = word(prng),
            5 => flow.limits.backlog = word(prng),
            6 => flow.limits.retain = word(prng),
            7 => flow.limits.slots = word(prng),
            8 => flow.limits.slot_bytes = word(prng),
            9 => damage_room(prng, &mut lent.store, |prng| prng.next() as u8),
            _ => damage_room(prng, &mut lent.lens, word),
        }
    }
}

/// The store's part of coherence; `room` is how many bytes it has.
pub fn store_fits(flow: &Flow, room: u64, lens: &[u64]) -> bool {
    let (slots, width) = (flow.limits.slots, flow.limits.slot_bytes);
    flow.is_coherent()
        && room == slots * width
        && lens.len() as u64 == slots
        && (flow.first..=flow.last).all(|n| lens[slot(flow, n)] <= width)
}

pub fn slot(flow: &Flow, number: i64) -> usize {
    ((number - 1) as u64 % flow.limits.slots) as usize
}

fn changes(
    prng: &mut Prng,
    near: Near,
    tally: &mut Tally,
    lent: &mut LentWriter,
) -> Result<(), String> {
    let call = draw_any::writer_call(prng, near);
    let before = lent.clone();
    let mut after = before.clone();
    let mut flow = forms::flow_view(&before.flow);
    let (name, got, expected) = match &call {
        WriterCall::Admit {
            opted_in, bytes, ..
        } => return admits(*opted_in, bytes, tally, lent),
        WriterCall::SetAcked { frontier } => {
            let told = AckedFrontier {
                present: frontier.is_some(),
                // An absent frontier's number says nothing.
                acked: SequenceNumber(frontier.unwrap_or_else(|| near.number(prng))),
            };
            (
                "writer_set_acked_frontier",
                ffi::writer_set_acked_frontier(&mut lent.flow, told),
                flow.set_acked_frontier(*frontier),
            )
        }
        WriterCall::SetSent { frontier } => (
            "writer_set_sent_frontier",
            ffi::writer_set_sent_frontier(&mut lent.flow, SequenceNumber(*frontier)),
            flow.set_sent_frontier(*frontier),
        ),
        WriterCall::Evict { before } => {
            let number = SequenceNumber(*before);
            let answer = ffi::writer_remove_changes_before(&mut lent.flow, number);
            let told = Told { answer, yes: false };
            let expected = flow.evict_before(*before).map(|()| false);
            ("writer_remove_changes_before", told, expected)
        }
    };
    count(tally, name, got.answer);
    let (answer, yes) = parts(expected);
    if answer.number == 0 {
        after.flow = forms::flow(&flow);
    }
    same(&(name, &call), got, Told { answer, yes })?;
    same(&(name, &call), &*lent, &after)
}

fn admits(
    opted: bool,
    payload: &[u8],
    tally: &mut Tally,
    lent: &mut LentWriter,
) -> Result<(), String> {
    let before = lent.clone();
    let (store, lens) = (&mut lent.store, &mut lent.lens);
    let got = ffi::writer_admit(&mut lent.flow, store, lens, payload, opted);
    count(tally, "writer_admit", got.answer);
    let (answer, number, after) = admitted(&before, opted, payload);
    let number = SequenceNumber(number);
    let name = ("writer_admit", payload, opted);
    same(&name, got, Numbered { answer, number })?;
    same(&name, &*lent, &after)
}

/// As the model admits; the payload's own bytes and its length are all that
/// changes in the store.
fn admitted(before: &LentWriter, opted: bool, payload: &[u8]) -> (ffi::Answer, i64, LentWriter) {
    let mut after = before.clone();
    let flow = forms::flow_view(&before.flow);
    if !store_fits(&flow, before.store.len() as u64, &before.lens) {
        return (INCOHERENT, 0, after);
    }
    let mut buffer: SendBuffer = before.view().expect("it fits");
    let (answer, number) = parts(buffer.admit(opted, payload));
    if answer.number == 0 {
        put_sample(&mut after, &buffer.flow, number, payload);
    }
    (answer, number, after)
}

/// What an admission changes.
pub fn put_sample(lent: &mut LentWriter, flow: &Flow, number: i64, payload: &[u8]) {
    lent.flow = forms::flow(flow);
    let slot = slot(flow, number);
    let start = slot * flow.limits.slot_bytes as usize;
    lent.store[start..start + payload.len()].copy_from_slice(payload);
    lent.lens[slot] = payload.len() as u64;
}

fn locates(
    prng: &mut Prng,
    near: Near,
    tally: &mut Tally,
    lent: &LentWriter,
) -> Result<(), String> {
    let (first, last) = (lent.flow.first.0, lent.flow.last.0);
    let number = match prng.coin() && first <= last {
        true => prng.between(first, last),
        false => near.number(prng),
    };
    let room = match prng.below(8) {
        0 => word(prng) as usize,
        _ => lent.store.len(),
    };
    let flow = forms::flow_view(&lent.flow);
    let place = if !store_fits(&flow, room as u64, &lent.lens) {
        Err(Refusal::Incoherent)
    } else if !(flow.first..=flow.last).contains(&number) {
        Err(Refusal::NothingThere)
    } else {
        Ok(slot(&flow, number))
    };
    let expected = match place {
        Ok(slot) => Located {
            answer: ffi::Answer::default(),
            start: slot * flow.limits.slot_bytes as usize,
            length: lent.lens[slot] as usize,
        },
        Err(refusal) => Located {
            answer: super::number(refusal),
            ..Located::default()
        },
    };
    let got = ffi::writer_locate(lent.flow, room, &lent.lens, SequenceNumber(number));
    count(tally, "writer_locate", got.answer);
    same(&("writer_locate", room, number), got, expected)
}

fn questions(
    prng: &mut Prng,
    near: Near,
    tally: &mut Tally,
    lent: &WriterSendBuffer,
) -> Result<(), String> {
    let flow = forms::flow_view(lent);
    let coherent = || match flow.is_coherent() {
        true => Ok(()),
        false => Err(Refusal::Incoherent),
    };
    let (number, opted) = (near.number(prng), prng.coin());

    let (answer, yes) = parts(coherent().map(|()| flow.has_room(opted)));
    let got = ffi::writer_has_room(*lent, opted);
    count(tally, "writer_has_room", got.answer);
    same(&("writer_has_room", opted), got, Told { answer, yes })?;

    let (answer, yes) = parts(flow.is_acked_through(number));
    let got = ffi::writer_is_acked_through(*lent, SequenceNumber(number));
    count(tally, "writer_is_acked_through", got.answer);
    let name = ("writer_is_acked_through", number);
    same(&name, got, Told { answer, yes })?;

    let got = ffi::writer_first_change_sequence_number(*lent);
    count(tally, "writer_first_change_sequence_number", got.answer);
    let first = numbered(coherent().map(|()| flow.first));
    same(&"writer_first_change_sequence_number", got, first)?;

    let got = ffi::writer_last_change_sequence_number(*lent);
    count(tally, "writer_last_change_sequence_number", got.answer);
    let last = numbered(coherent().map(|()| flow.last));
    same(&"writer_last_change_sequence_number", got, last)
}

fn numbered(answer: Answer<i64>) -> Numbered {
    let (answer, number) = parts(answer);
    let number = SequenceNumber(number);
    Numbered { answer, number }
}

fn creation(prng: &mut Prng, tally: &mut Tally) -> Result<(), String> {
    let (kind, limits) = (draw_list::kind(prng), draw_list::limits(prng));
    let got = ffi::writer_new(forms::kind(kind), forms::limits(limits));
    count(tally, "writer_new", got.answer);
    let expected = match Flow::new(kind, limits) {
        Ok(flow) => Moved {
            answer: ffi::Answer::default(),
            flow: forms::flow(&flow),
        },
        Err(refusal) => Moved {
            answer: number(refusal),
            flow: WriterSendBuffer::default(),
        },
    };
    same(&("writer_new", kind, limits), got, expected)
}

/// The send step on this flow record and some reader, damaged or not.
fn sends(
    prng: &mut Prng,
    near: Near,
    tally: &mut Tally,
    flow: &WriterSendBuffer,
) -> Result<(), String> {
    let mut lent = LentReader::form(&draw_any::reader(prng, near));
    if prng.one_in(4) {
        reader::damage(prng, near, &mut lent);
    }
    let before = lent.clone();
    let got = ffi::send_first(*flow, lent.proxy, &mut lent.unsent);
    count(tally, "send_first", got.answer);
    lent.proxy = got.proxy;
    let (expected, after) = sent(&forms::flow_view(flow), &before);
    same(&("send_first", flow, &before.proxy), got, expected)?;
    same(&("send_first", flow, &before.proxy), lent, after)
}

fn sent(flow: &Flow, before: &LentReader) -> (Sent, LentReader) {
    let refused = |answer| {
        let sent = Sent {
            answer,
            proxy: before.proxy,
            ..Sent::default()
        };
        (sent, before.clone())
    };
    let mut record = match reader::view(before, reader::UNSENT) {
        Some(record) if flow.is_coherent() => record,
        _ => return refused(INCOHERENT),
    };
    let first = match record.next_unsent(1) {
        Ok(first) => first,
        Err(refusal) => return refused(number(refusal)),
    };
    record.mark_change_sent(first).expect("a coherent record");
    let after = reader::form(before, reader::UNSENT, &record);
    let sent = Sent {
        answer: ffi::Answer::default(),
        number: SequenceNumber(first),
        data: (flow.first..=flow.last).contains(&first),
        proxy: after.proxy,
    };
    (sent, after)
}
