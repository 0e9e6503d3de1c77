//! A write that tells every reader: the readers' proxies side by side, and their
//! unsent rooms in stretches of one room.

use model::{steps as judge, Reader, Refusal};
use sintemuno::ffi::{self, Numbered, ReaderProxy, SequenceNumber};

use super::{count, damage_room, parts, reader, word, writer, Tally, CALLS_PER_WORLD};
use crate::{
    beside::same,
    draw_any::{self, Near},
    forms::{self, LentReader, LentWriter},
    prng::Prng,
    steps::{Steps, Store},
};

#[derive(Clone, PartialEq, Eq, Debug)]
struct Lent {
    writer: LentWriter,
    proxies: Vec<ReaderProxy>,
    unsent: Vec<u64>,
}

pub fn world(steps: &impl Steps, prng: &mut Prng, tally: &mut Tally) -> Result<(), String> {
    let near = Near::new(prng);
    let mut sound = drawn(prng, near);
    for _ in 0..CALLS_PER_WORLD {
        let damaged = prng.one_in(3);
        let mut lent = sound.clone();
        if damaged {
            damage(prng, near, &mut lent);
        }
        writes(steps, prng, tally, &mut lent)?;
        if !damaged {
            sound = lent;
        }
    }
    Ok(())
}

/// Readers and free places. The stretches are of any length, mostly enough; what
/// lies past a reader's part in its stretch may be anything.
fn drawn(prng: &mut Prng, near: Near) -> Lent {
    let places = prng.pick(&[0, 1, 2, 3, 3, 64, 65]);
    let records: Vec<Option<LentReader>> = (0..places)
        .map(|_| match prng.one_in(4) {
            true => None,
            false => Some(LentReader::form(&draw_any::reader(prng, near))),
        })
        .collect();
    let proxies = records.iter().flatten().map(|r| &r.proxy);
    let (needs, caps): (Vec<usize>, Vec<usize>) =
        proxies.map(|p| (p.unsent_count + 1, p.unsent_cap)).unzip();
    let most = |of: Vec<usize>| of.into_iter().max().unwrap_or(0);
    let (need, cap) = (most(needs), most(caps));
    let stretch = prng.pick(&[need, need, need + 1, need.max(1) - 1, cap]);
    let mut unsent = Vec::new();
    for record in &records {
        let held = record.as_ref().map_or(0, |r| r.proxy.unsent_count);
        let mut room = record.as_ref().map_or(Vec::new(), |r| r.unsent.clone());
        room.resize(stretch, 0);
        if prng.one_in(3) {
            room.iter_mut().skip(held + 1).for_each(|n| *n = word(prng));
        }
        unsent.extend(room);
    }
    unsent.extend((0..prng.below(places.max(1))).map(|_| word(prng)));
    Lent {
        writer: LentWriter::form(&draw_any::send_buffer(prng, near)),
        proxies: records.iter().map(head_of).collect(),
        unsent,
    }
}

fn head_of(record: &Option<LentReader>) -> ReaderProxy {
    record.as_ref().map_or(ReaderProxy::default(), |r| r.proxy)
}

fn damage(prng: &mut Prng, near: Near, lent: &mut Lent) {
    let place = prng.below(lent.proxies.len().max(1) as u64) as usize;
    match (prng.below(4), lent.proxies.get_mut(place)) {
        (0..=1, Some(proxy)) => {
            let mut record = LentReader {
                proxy: *proxy,
                unsent: Vec::new(),
                gaps: Vec::new(),
                samples: Vec::new(),
                words: Vec::new(),
            };
            reader::damage(prng, near, &mut record);
            *proxy = record.proxy;
        }
        (2, _) => damage_room(prng, &mut lent.unsent, word),
        _ => writer::damage(prng, near, &mut lent.writer),
    }
}

/// So much of a stretch is looked at.
fn own(proxy: &ReaderProxy, stretch: usize) -> usize {
    let most = proxy.unsent_cap.min(stretch);
    most.min(proxy.unsent_count.saturating_add(1))
}

/// The reader at each place with the part of the room that is its own; `None`
/// for a free place. `Err` where one isn't coherent.
fn views(lent: &Lent) -> Result<Vec<Option<(LentReader, Reader)>>, Refusal> {
    let places = lent.proxies.len();
    if places > 64 {
        return Err(Refusal::Incoherent);
    }
    let stretch = lent.unsent.len() / places.max(1);
    let view = |(place, proxy): (usize, &ReaderProxy)| {
        if *proxy == ReaderProxy::default() {
            return Ok(None);
        }
        let start = place * stretch;
        let record = LentReader {
            proxy: *proxy,
            unsent: lent.unsent[start..start + own(proxy, stretch)].to_vec(),
            gaps: Vec::new(),
            samples: Vec::new(),
            words: Vec::new(),
        };
        let view = reader::view(&record, reader::joining(reader::UNSENT, 1));
        Ok(Some((record, view.ok_or(Refusal::Incoherent)?)))
    };
    lent.proxies.iter().enumerate().map(view).collect()
}

/// What the write answers, and all that it leaves.
fn written(before: &Lent, opted: bool, payload: &[u8]) -> (ffi::Answer, i64, Lent) {
    let mut after = before.clone();
    let refused = |refusal: Refusal| (super::number(refusal), 0, before.clone());
    let mut views = match views(before) {
        Ok(views) => views,
        Err(refusal) => return refused(refusal),
    };
    let flow = forms::flow_view(&before.writer.flow);
    let lent = &before.writer;
    if !writer::store_fits(&flow, lent.store.len() as u64, &lent.lens) {
        return refused(Refusal::Incoherent);
    }
    let mut buffer = lent.view().expect("it fits");
    let mut records: Vec<&mut Reader> = views.iter_mut().flatten().map(|v| &mut v.1).collect();
    let (answer, number) = parts(judge::write(&mut buffer, &mut records, opted, payload));
    if answer.number != 0 {
        return (answer, 0, after);
    }
    writer::put_sample(&mut after.writer, &buffer.flow, number, payload);
    let stretch = before.unsent.len() / before.proxies.len().max(1);
    for (place, view) in views.into_iter().enumerate() {
        if let Some((was, record)) = view {
            let made = reader::form(&was, reader::UNSENT, &record);
            let start = place * stretch;
            after.unsent[start..start + made.unsent.len()].copy_from_slice(&made.unsent);
            after.proxies[place] = made.proxy;
        }
    }
    (answer, number, after)
}

fn writes(
    steps: &impl Steps,
    prng: &mut Prng,
    tally: &mut Tally,
    lent: &mut Lent,
) -> Result<(), String> {
    let most = lent.writer.flow.limits.slot_bytes.min(16) + 2;
    let payload = vec![prng.next() as u8; prng.below(most) as usize];
    let opted = prng.coin();
    let (answer, number, after) = written(lent, opted, &payload);
    let store = Store {
        bytes: &mut lent.writer.store,
        lens: &mut lent.writer.lens,
    };
    let (flow, unsent) = (&mut lent.writer.flow, &mut lent.unsent);
    let got = steps.write(flow, store, &payload, opted, &mut lent.proxies, unsent);
    count(tally, "write", got.answer);
    let number = SequenceNumber(number);
    let name = ("write", payload, opted);
    same(&name, got, Numbered { answer, number })?;
    same(&name, &*lent, &after)
}
