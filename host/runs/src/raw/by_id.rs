//! The steps by reader id: a match, a departure, an ACKNACK, a NACK_FRAG.

use model::{steps as judge, Answer, Flow, ReaderList, Refusal};
use sintemuno::ffi::{AckTold, Changed, Match, ReaderHead, SequenceNumber, Told, WriterSendBuffer};

use super::{count, list, parts, reader, writer, Tally, CALLS_PER_WORLD};
use crate::{
    beside::same,
    draw_any::{self, Near},
    draw_list,
    forms::{self, LentReader, LentWriter},
    prng::Prng,
    steps::Steps,
};

/// What a server holds, with one reader's record.
#[derive(Clone, PartialEq, Eq, Debug)]
struct Lent {
    slots: Vec<ReaderHead>,
    flow: WriterSendBuffer,
    reader: LentReader,
}

pub fn world(steps: &impl Steps, prng: &mut Prng, tally: &mut Tally) -> Result<(), String> {
    let near = Near::new(prng);
    let (own, mut sound) = drawn(prng, near);
    for _ in 0..CALLS_PER_WORLD {
        let damaged = prng.one_in(3);
        let mut lent = sound.clone();
        if prng.coin() {
            reader::lend_in_part(prng, &mut lent.reader);
        }
        if damaged {
            damage(prng, near, &mut lent);
        }
        let id = match prng.one_in(3) {
            true => draw_list::id(prng),
            false => own,
        };
        match prng.below(6) {
            0 => matches(steps, prng, id, tally, &mut lent)?,
            1 => departs(steps, id, tally, &mut lent)?,
            2..=3 => acknowledges(steps, prng, near, id, tally, &mut lent)?,
            _ => requests(steps, prng, near, id, tally, &mut lent)?,
        }
        if !damaged {
            reader::make_whole(&mut lent.reader);
            sound = lent;
        }
    }
    Ok(())
}

/// A list, a flow record, and the record of one of the list's readers, whose
/// head agrees with it.
fn drawn(prng: &mut Prng, near: Near) -> (u64, Lent) {
    let mut slots = list::drawn(prng, near);
    if prng.one_in(6) {
        // All have more than was written, or 2 would hardly be met.
        let there = slots.iter_mut().filter(|head| head.id != 0);
        there.for_each(|head| head.acked = SequenceNumber(i64::MAX));
    }
    let reader = LentReader::form(&draw_any::reader(prng, near));
    let there: Vec<usize> = (0..slots.len()).filter(|p| slots[*p].id != 0).collect();
    let mut own = 1;
    if !there.is_empty() {
        let head = &mut slots[prng.pick(&there)];
        head.acked = reader.proxy.all_acked_before;
        own = head.id;
    }
    let flow = forms::flow(&draw_any::send_buffer(prng, near).flow);
    (
        own,
        Lent {
            slots,
            flow,
            reader,
        },
    )
}

fn damage(prng: &mut Prng, near: Near, lent: &mut Lent) {
    match prng.below(3) {
        0 => list::damage(prng, near, &mut lent.slots),
        1 => reader::damage(prng, near, &mut lent.reader),
        _ => {
            let mut with_store = LentWriter {
                flow: lent.flow,
                store: Vec::new(),
                lens: Vec::new(),
            };
            writer::damage(prng, near, &mut with_store);
            lent.flow = with_store.flow;
        }
    }
}

/// What a step on the list and the flow record answers, and the flow record
/// after it.
fn judged(
    before: &Lent,
    step: impl FnOnce(&mut ReaderList, &mut Flow) -> Answer<bool>,
) -> (Answer<bool>, WriterSendBuffer) {
    let mut flow = forms::flow_view(&before.flow);
    let answer = match list::view(&before.slots) {
        Some(mut list) => step(&mut list, &mut flow),
        None => Err(Refusal::Incoherent),
    };
    (answer, forms::flow(&flow))
}

fn told(answer: Answer<bool>) -> Told {
    let (answer, yes) = parts(answer);
    Told { answer, yes }
}

fn matches(
    steps: &impl Steps,
    prng: &mut Prng,
    id: u64,
    tally: &mut Tally,
    lent: &mut Lent,
) -> Result<(), String> {
    let (reliable, cap) = (prng.coin(), draw_list::cap(prng));
    let mut after = lent.clone();
    let (mut expected, flow) = judged(lent, |list, flow| {
        judge::match_reader(list, flow, id, reliable, cap as usize)
    });
    if !(1..=1024).contains(&cap) {
        expected = Err(Refusal::LimitNotAllowed);
    }
    if expected.is_ok() {
        after.flow = flow;
        let free = list::place_of(&lent.slots, 0).expect("a free slot");
        after.slots[free] = ReaderHead {
            id,
            reliable,
            acked: SequenceNumber(0),
        };
    }
    let call = Match { id, reliable, cap };
    let got = steps.match_reader(&mut lent.slots, &mut lent.flow, call);
    count(tally, "match_reader", got.answer);
    same(&("match_reader", call), got, told(expected))?;
    same(&("match_reader", call), &*lent, &after)
}

fn departs(steps: &impl Steps, id: u64, tally: &mut Tally, lent: &mut Lent) -> Result<(), String> {
    let mut after = lent.clone();
    let (expected, flow) = judged(lent, |list, flow| judge::depart(list, flow, id));
    if expected.is_ok() {
        after.flow = flow;
        let place = list::place_of(&lent.slots, id).expect("there");
        after.slots[place] = ReaderHead::default();
    }
    let got = steps.depart_reader(&mut lent.slots, &mut lent.flow, id);
    count(tally, "depart_reader", got.answer);
    same(&("depart_reader", id), got, told(expected))?;
    same(&("depart_reader", id), &*lent, &after)
}

fn acknowledges(
    steps: &impl Steps,
    prng: &mut Prng,
    near: Near,
    id: u64,
    tally: &mut Tally,
    lent: &mut Lent,
) -> Result<(), String> {
    let mut set = draw_any::number_set(prng, near);
    if prng.coin() {
        // Mostly not ahead of what was written.
        set.base = lent.flow.last.0.saturating_add(prng.between(-5, 2));
    }
    let mut after = lent.clone();
    let mut flow = forms::flow_view(&lent.flow);
    let lends = reader::joining(reader::UNSENT_AND_GAPS, set.count.min(256) as usize);
    let (answer, (left_out, yes), record) = reader::judged(&lent.reader, lends, |record| {
        let mut list = list::view(&lent.slots).ok_or(Refusal::Incoherent)?;
        judge::take_ack(&mut list, &mut flow, record, id, &set)
    });
    if answer.number == 0 {
        after.flow = forms::flow(&flow);
        let place = list::place_of(&lent.slots, id).expect("there");
        after.slots[place].acked = record.proxy.all_acked_before;
        after.reader = record;
    }
    let expected = AckTold {
        told: Told { answer, yes },
        left_out: left_out as usize,
        proxy: after.reader.proxy,
    };
    let proxy = lent.reader.proxy;
    let rooms = (&mut lent.reader.unsent[..], &mut lent.reader.gaps[..]);
    let asked = forms::number_set(&set);
    let got = steps.take_ack_nack(&mut lent.slots, &mut lent.flow, proxy, rooms, id, asked);
    lent.reader.proxy = got.proxy;
    count(tally, "take_ack_nack", got.told.answer);
    same(&("take_ack_nack", id, set), got, expected)?;
    same(&("take_ack_nack", id, set), &*lent, &after)
}

fn requests(
    steps: &impl Steps,
    prng: &mut Prng,
    near: Near,
    id: u64,
    tally: &mut Tally,
    lent: &mut Lent,
) -> Result<(), String> {
    let (sample, set) = (near.number(prng), draw_any::fragment_set(prng));
    let mut after = lent.clone();
    let lends = reader::joining(reader::FRAGS, 1);
    let (answer, (), record) = reader::judged(&lent.reader, lends, |record| {
        let list = list::view(&lent.slots).ok_or(Refusal::Incoherent)?;
        judge::request_fragments(&list, record, id, sample, &set)
    });
    after.reader = record;
    let expected = Changed {
        answer,
        proxy: after.reader.proxy,
    };
    let proxy = lent.reader.proxy;
    let rooms = (&mut lent.reader.samples[..], &mut lent.reader.words[..]);
    let (n, asked) = (SequenceNumber(sample), forms::fragment_set(&set));
    let got = steps.take_nack_frag(&lent.slots, proxy, rooms, id, n, asked);
    lent.reader.proxy = got.proxy;
    count(tally, "take_nack_frag", got.answer);
    same(&("take_nack_frag", id, sample, set), got, expected)?;
    same(&("take_nack_frag", id, sample, set), &*lent, &after)
}
