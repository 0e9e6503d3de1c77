//! The Rust crate's `Writer`, all of its steps, against the model's: every
//! answer and the whole state after each call.

use std::fmt::Debug;

use model::{numbers::LAST_SAMPLE, steps::Sent as Judged, Kind, Limits, SendBuffer};
use runs::{beside::same, draw_any, draw_list, forms, prng::Prng};
use sintemuno::{FragmentNumber, Refusal, Sent, SequenceNumber, Writer};

const READERS: usize = 3;
const WORLDS: u64 = 3_000;
const CALLS_PER_WORLD: u64 = 40;

struct Pair {
    subject: Writer,
    judge: model::Writer,
    cap: usize,
}

fn pair(prng: &mut Prng) -> Pair {
    let kind = Kind {
        reliable: !prng.one_in(4),
        builtin: prng.one_in(8),
        volatile: prng.coin(),
    };
    let slots = prng.pick(&[1, 4, 16]);
    let limits = Limits {
        window: prng.pick(&[1, 3, 9, 100]),
        backlog: prng.pick(&[2, 9, 100]),
        retain: prng.below(slots + 1),
        slots,
        slot_bytes: 4,
    };
    let cap = prng.pick(&[1, 2, 8, 1024]);
    let buffer = SendBuffer::new(kind, limits).unwrap();
    Pair {
        subject: Writer::new(forms::kind(kind), forms::limits(limits), READERS, cap).unwrap(),
        judge: model::Writer::new(buffer, READERS).unwrap(),
        cap,
    }
}

fn number<T>(answer: Result<T, Refusal>) -> Result<T, u32> {
    answer.map_err(Refusal::number)
}

fn judged<T>(answer: model::Answer<T>) -> Result<T, u32> {
    answer.map_err(|refusal| u32::from(refusal.number()))
}

/// The list, the buffer and the readers' records, through what the crate shows.
fn state(pair: &Pair) -> Result<(), String> {
    let (subject, judge) = (&pair.subject, &pair.judge);
    let list = forms::slots_view(subject.readers().slots());
    let mut heads = judge.list.heads.clone();
    heads.sort_by_key(|h| h.id);
    same(&"list", list.heads, heads)?;
    let (first, last) = (judge.buffer.flow.first, judge.buffer.flow.last);
    let buffer = subject.buffer();
    same(&"first", buffer.first_change_sequence_number().0, first)?;
    same(&"last", buffer.last_change_sequence_number().0, last)?;
    for n in first - 1..=last + 1 {
        let through = judge.buffer.flow.is_acked_through(n) == Ok(true);
        same(&n, buffer.is_acked_through(SequenceNumber(n)), through)?;
        let bytes = judge.buffer.get(n).ok();
        same(&n, buffer.get_by_sn(SequenceNumber(n)), bytes)?;
    }
    records(subject, judge)
}

/// What the crate shows of each reader, and which are there.
fn records(subject: &Writer, judge: &model::Writer) -> Result<(), String> {
    for (id, record) in &judge.records {
        let proxy = subject.reader(*id).map_err(|e| e.to_string())?;
        same(id, proxy.acked_up_to_before().0, record.acked)?;
        let unsent: Vec<i64> = proxy.unsent_changes_iter().map(i64::from).collect();
        same(id, unsent, record.unsent.iter().copied().collect())?;
        let asked: Vec<(i64, u32)> = proxy
            .frags_requested_iterator()
            .map(|(n, f)| (n.0, f.0))
            .collect();
        let first = record.frags.iter().next();
        let first = first.map_or(Vec::new(), |(n, fs)| fs.iter().map(|f| (*n, *f)).collect());
        same(id, asked, first)?;
        same(id, proxy.repair_frags_requested(), !record.frags.is_empty())?;
        let count = proxy.unsent_changes_count();
        same(id, count, record.unsent.len())?;
        let first = proxy.first_unsent_change().map(i64::from);
        same(id, first, record.unsent.iter().next().copied())?;
        same(id, proxy.get_pending_gap().count(), 0)?;
    }
    for id in 0..=READERS as u64 + 1 {
        let there = subject.reader(id).map(|_| ()).map_err(Refusal::number);
        let known = judge.records.contains_key(&id);
        same(&id, there, if known { Ok(()) } else { Err(11) })?;
    }
    Ok(())
}

/// Whether the call was refused, where both answer the same.
fn compared<T: PartialEq + Debug>(
    call: &impl Debug,
    got: Result<T, u32>,
    expected: Result<T, u32>,
) -> Result<bool, String> {
    let refused = got.is_err();
    same(call, got, expected)?;
    Ok(refused)
}

fn step(prng: &mut Prng, pair: &mut Pair) -> Result<bool, String> {
    let near = draw_any::Near(pair.judge.buffer.flow.last);
    let any = if prng.one_in(12) {
        prng.pick(&[i64::MIN, -1, 0, LAST_SAMPLE, i64::MAX])
    } else {
        near.0 + prng.between(-4, 2)
    };
    let id = prng.below(READERS as u64 + 2);
    let (subject, judge) = (&mut pair.subject, &mut pair.judge);
    match prng.below(14) {
        0 => {
            let reliable = prng.coin();
            let expected = judged(judge.match_reader(id, reliable, pair.cap));
            let got = number(subject.matched_reader_add(id, reliable));
            compared(&"match", got, expected)
        }
        1 => {
            let got = number(subject.matched_reader_remove(id));
            compared(&"departure", got, judged(judge.depart(id)))
        }
        2..=4 => {
            let bytes = vec![prng.next() as u8; prng.below(6) as usize];
            let opted = prng.coin();
            let got = number(subject.write(opted, &bytes)).map(|n| n.0);
            compared(&"write", got, judged(judge.write(opted, &bytes)))
        }
        5..=6 => {
            let mut set = draw_any::number_set(prng, near);
            set.base = any;
            let got = number(subject.handle_ack_nack(id, &forms::number_set(&set)));
            let got = got.map(|a| (a.left_out as u64, a.wake));
            compared(&("ack", set), got, judged(judge.take_ack(id, &set)))
        }
        7..=9 => sends(prng, pair, id),
        10 => {
            let got = number(subject.mark_change_sent(id, SequenceNumber(any)));
            compared(&("sent", any), got, judged(judge.mark_sent(id, any)))
        }
        11..=12 => fragments(prng, pair, id, any),
        _ => {
            let got = number(subject.remove_changes_before(SequenceNumber(any)));
            compared(&("evict", any), got, judged(judge.buffer.evict_before(any)))
        }
    }
}

fn sends(prng: &mut Prng, pair: &mut Pair, id: u64) -> Result<bool, String> {
    let (subject, judge) = (&mut pair.subject, &mut pair.judge);
    let form = |sent: Sent| match sent {
        Sent::Data(n, bytes) => Judged::Data(n.0, bytes.to_vec()),
        Sent::Gap(n) => Judged::Gap(n.0),
    };
    if prng.coin() {
        let got = number(subject.send_first(id)).map(form);
        return compared(&"send", got, judged(judge.send_step(id)));
    }
    let most = prng.pick(&[0, 1, 2, 3, 256, 1000]);
    let got = number(subject.send_many(id, most)).map(|sent| sent.map(form).collect());
    let expected = judged(judge.send_many(id, most.min(256)));
    compared(&("send many", most), got, expected)
}

fn fragments(prng: &mut Prng, pair: &mut Pair, id: u64, sample: i64) -> Result<bool, String> {
    let (subject, judge) = (&mut pair.subject, &mut pair.judge);
    let number_of = SequenceNumber(sample);
    if prng.coin() {
        let set = draw_any::fragment_set(prng);
        let lent = forms::fragment_set(&set);
        let got = number(subject.mark_frags_requested(id, number_of, &lent));
        let expected = judged(judge.request_fragments(id, sample, &set));
        return compared(&("frag", sample, set), got, expected);
    }
    let fragment = draw_any::fragment(prng);
    let got = number(subject.mark_frag_sent(id, number_of, FragmentNumber(fragment)));
    let expected = match judge.records.get_mut(&id) {
        Some(record) => judged(record.mark_frag_sent(sample, fragment)),
        None => Err(11),
    };
    compared(&("frag sent", sample, fragment), got, expected)
}

#[test]
fn the_writer_against_the_model() {
    for world in 0..WORLDS {
        let mut prng = Prng::of_world(11, world);
        let mut pair = pair(&mut prng);
        for _ in 0..CALLS_PER_WORLD {
            let before = pair.subject.clone();
            let outcome = step(&mut prng, &mut pair).and_then(|refused| {
                if refused {
                    same(&"refused", &pair.subject, &before)?;
                }
                state(&pair)
            });
            outcome.unwrap_or_else(|e| panic!("world {}: {}", world, e));
        }
    }
}

/// Creation with limits and capacities at and past their ends.
#[test]
fn creation() {
    for world in 0..10_000 {
        let mut prng = Prng::of_world(12, world);
        let (kind, limits) = (draw_list::kind(&mut prng), draw_list::limits(&mut prng));
        let cap = draw_list::cap(&mut prng) as usize;
        let readers = prng.pick(&[0, 1, 64, 65]);
        let allowed = SendBuffer::new(kind, limits).is_ok()
            && model::Reader::new(cap).is_ok()
            && model::ReaderList::new(readers).is_ok();
        let made = Writer::new(forms::kind(kind), forms::limits(limits), readers, cap);
        match made {
            Ok(_) => assert!(allowed),
            Err(refusal) => assert_eq!((allowed, refusal.number()), (false, 13)),
        }
    }
}
