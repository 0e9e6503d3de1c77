//! The send step for many.

use model::steps::{self as judge, Sent};
use sintemuno::ffi::SentMany;

use super::{count, reader, word, writer, Tally, CALLS_PER_WORLD};
use crate::{
    beside::same,
    draw_any::{self, Near},
    forms::{self, LentReader, LentWriter},
    prng::Prng,
    steps::{Out, Steps},
};

/// The three rooms for what is sent.
#[derive(Clone, PartialEq, Eq, Debug)]
struct Rooms {
    numbers: Vec<u64>,
    starts: Vec<u64>,
    lengths: Vec<u64>,
}

pub fn world(steps: &impl Steps, prng: &mut Prng, tally: &mut Tally) -> Result<(), String> {
    let near = Near::new(prng);
    let sound = LentWriter::form(&draw_any::send_buffer(prng, near));
    for _ in 0..CALLS_PER_WORLD {
        let mut lent = LentReader::form(&draw_any::reader(prng, near));
        if prng.coin() {
            reader::lend_in_part(prng, &mut lent);
        }
        let mut from = sound.clone();
        match prng.below(4) {
            0 => reader::damage(prng, near, &mut lent),
            1 => writer::damage(prng, near, &mut from),
            _ => {}
        }
        sends(steps, prng, tally, &from, &mut lent)?;
    }
    Ok(())
}

fn drawn(prng: &mut Prng) -> Rooms {
    let most = prng.pick(&[0, 1, 2, 5, 12, 256]);
    let mut room = || -> Vec<u64> {
        let more = prng.pick(&[0, 0, 0, 1, 7]);
        (0..most + more).map(|_| word(prng)).collect()
    };
    Rooms {
        numbers: room(),
        starts: room(),
        lengths: room(),
    }
}

fn sends(
    steps: &impl Steps,
    prng: &mut Prng,
    tally: &mut Tally,
    from: &LentWriter,
    lent: &mut LentReader,
) -> Result<(), String> {
    let room = match prng.below(8) {
        0 => word(prng) as usize,
        _ => from.store.len(),
    };
    let mut rooms = drawn(prng);
    let before = (lent.clone(), rooms.clone());
    let (expected, after, out) = sent(from, room, &before.0, &before.1);
    let proxy = lent.proxy;
    let lends = Out {
        numbers: &mut rooms.numbers,
        starts: &mut rooms.starts,
        lengths: &mut rooms.lengths,
    };
    let got = steps.send_many(from.flow, (room, &from.lens), proxy, &mut lent.unsent, lends);
    lent.proxy = got.proxy;
    count(tally, "send_many", got.answer);
    let name = ("send_many", from.flow, room, before);
    same(&name, got, expected)?;
    same(&name, &*lent, &after)?;
    same(&name, rooms, out)
}

/// What the step answers, and what it leaves of the reader and in the rooms.
fn sent(
    from: &LentWriter,
    room: usize,
    before: &LentReader,
    rooms: &Rooms,
) -> (SentMany, LentReader, Rooms) {
    let flow = forms::flow_view(&from.flow);
    let lengths = [&rooms.numbers, &rooms.starts, &rooms.lengths].map(Vec::len);
    let most = lengths.into_iter().min().unwrap_or(0);
    let (answer, sent, after) = reader::judged(before, reader::UNSENT, |record| {
        if !writer::store_fits(&flow, room as u64, &from.lens) {
            return Err(model::Refusal::Incoherent);
        }
        // The store's bytes aren't lent, so those of another length are none.
        let mut whole = from.clone();
        whole.store.resize(room, 0);
        judge::send_many(&whole.view().expect("it fits"), record, most)
    });
    let mut out = rooms.clone();
    for (place, sent) in sent.iter().enumerate() {
        let (number, start, length) = match sent {
            Sent::Data(n, bytes) => {
                let start = writer::slot(&flow, *n) * flow.limits.slot_bytes as usize;
                (*n, start as u64, bytes.len() as u64)
            }
            Sent::Gap(n) => (*n, u64::MAX, 0),
        };
        out.numbers[place] = number as u64;
        out.starts[place] = start;
        out.lengths[place] = length;
    }
    let expected = SentMany {
        answer,
        count: sent.len(),
        proxy: after.proxy,
    };
    (expected, after, out)
}
