//! The fixed list of the crate's answers: calls drawn inside document 01's
//! compared range, made on the crate alone, each with what the crate then shows.
//! `crates/oracle_replay` makes the same calls on the proved library and compares.
//!
//! A line is read by its numbers alone; the words between them are for people.
//! `#` starts a hexadecimal number, `a..b` is a, a+1, .. up to before b, a colon
//! follows how many there are, and 0 stands where the crate has nothing.

use std::collections::BTreeMap;

use crate::{
    calls::{ReaderCall, Way, WriterCall},
    draw_reader::ReaderWorld,
    draw_writer::WriterWorld,
    oracle_subject::{OracleReader, OracleWriter},
    prng::Prng,
    range::{ReaderRange, WriterRange},
    sight::{asked_numbers, fetched_numbers, Probe, ReaderSight, WriterSight},
};

const SEED: u64 = 1;

/// Readers and writers, in turn.
const BLOCKS: u64 = 24;
const CALLS_PER_BLOCK: u64 = 40;

/// How far below the last number acked-through is listed.
const ASKED_BELOW: i64 = 4;

pub fn list() -> String {
    assert!(
        oracle::fixed_cap().is_none(),
        "the list is made with a cap for each reader"
    );
    let mut lines = vec![format!(
        "blocks {}; calls {}",
        BLOCKS,
        BLOCKS * CALLS_PER_BLOCK
    )];
    for block in 0..BLOCKS {
        let mut prng = Prng::of_world(SEED, block);
        let name = block / 2 + 1;
        if block % 2 == 0 {
            reader_block(&mut prng, name, &mut lines);
        } else {
            writer_block(&mut prng, name, &mut lines);
        }
    }
    lines.push(String::new());
    lines.join("\n")
}

fn reader_block(prng: &mut Prng, name: u64, lines: &mut Vec<String>) {
    let mut world = ReaderWorld::new(prng);
    let mut reader = OracleReader(oracle::Reader::new(world.cap));
    let mut range = ReaderRange::new(world.cap);
    lines.push(format!(
        "0 reader {}; calls {}; cap {}",
        name, CALLS_PER_BLOCK, world.cap
    ));
    let mut made = 0;
    while made < CALLS_PER_BLOCK {
        let call = world.draw(prng, reader.0.acked_up_to_before());
        let probe = world.probe(prng);
        if !range.allows(&call, &reader) {
            continue;
        }
        reader.call(&call);
        range.took(&call, &reader);
        lines.push(reader_line(&call, probe, &reader.sight(probe)));
        made += 1;
    }
}

fn reader_line(call: &ReaderCall, probe: Probe, sight: &ReaderSight) -> String {
    let (first, first_from) = (
        sight.next_fragment.unwrap_or((0, 0)),
        sight.next_fragment_from.unwrap_or((0, 0)),
    );
    format!(
        "{}; acked {}; first unsent {}; unsent {}; gap {}; fragments {}; from {}: unsent {} gap {}; \
         next fragment {} of {}, from {}: {} of {}; any {}",
        reader_call(call),
        sight.acked,
        sight.first_unsent.unwrap_or(0),
        runs(&sight.unsent),
        runs(&sight.gaps),
        fragment_words(&sight.frags),
        probe.number,
        sight.next_unsent.unwrap_or(0),
        sight.next_gap.unwrap_or(0),
        first.1,
        first.0,
        probe.fragment,
        first_from.1,
        first_from.0,
        u8::from(sight.any_requested),
    )
}

fn reader_call(call: &ReaderCall) -> String {
    match call {
        ReaderCall::Ack { set, last } => {
            let set = written_set(set.base, set.count, set.words);
            format!("1 handle_ack_nack {} last {}", set, last)
        }
        ReaderCall::Notify { number } => format!("2 notify_new_cache_change {}", number),
        ReaderCall::MarkSent { number } => format!("3 mark_change_sent {}", number),
        ReaderCall::RemoveBefore { number } => {
            format!("4 remove_from_unsent_set_all_before {}", number)
        }
        ReaderCall::Gap { number, last } => {
            format!("5 insert_pending_gap {} last {}", number, last)
        }
        ReaderCall::GapUpTo { end, last } => {
            format!("6 set_pending_gap_up_to {} last {}", end, last)
        }
        ReaderCall::Request { sample, set } => {
            let set = written_set(i64::from(set.base), set.count, set.words);
            format!("7 mark_frags_requested {} {}", sample, set)
        }
        ReaderCall::FragSent { sample, fragment } => {
            format!("8 mark_frag_sent {} fragment {}", sample, fragment)
        }
    }
}

fn written_set(base: i64, count: u32, words: [u32; 8]) -> String {
    let words: Vec<String> = words.iter().map(|w| format!("#{:x}", w)).collect();
    format!("base {} bits {} words {}", base, count, words.join(" "))
}

/// Rising numbers as runs without a hole.
fn runs(numbers: &[i64]) -> String {
    let mut runs: Vec<(i64, i64)> = Vec::new();
    for n in numbers {
        match runs.last_mut() {
            Some((_, end)) if *end == *n => *end += 1,
            _ => runs.push((*n, *n + 1)),
        }
    }
    let shown: Vec<String> = runs.iter().map(|(a, b)| format!(" {}..{}", a, b)).collect();
    format!("{}:{}", runs.len(), shown.concat())
}

/// The requested fragments of each sample as 64-bit words, up to the last that
/// isn't 0: fragment f is bit (f-1) mod 64 of word (f-1) div 64.
fn fragment_words(frags: &[(i64, u32)]) -> String {
    let mut samples: BTreeMap<i64, Vec<u64>> = BTreeMap::new();
    for (sample, fragment) in frags {
        let words = samples.entry(*sample).or_default();
        let bit = *fragment as usize - 1;
        if words.len() <= bit / 64 {
            words.resize(bit / 64 + 1, 0);
        }
        words[bit / 64] |= 1 << (bit % 64);
    }
    let shown: Vec<String> = samples
        .iter()
        .map(|(sample, words)| {
            let shown: Vec<String> = words.iter().map(|w| format!(" #{:x}", w)).collect();
            format!(" of {} words {}:{}", sample, words.len(), shown.concat())
        })
        .collect();
    format!("{}:{}", samples.len(), shown.concat())
}

fn writer_block(prng: &mut Prng, name: u64, lines: &mut Vec<String>) {
    let world = WriterWorld::new(prng);
    let (kind, limits) = (world.kind, world.limits);
    let mut writer = OracleWriter::new(kind, limits);
    let mut range = WriterRange::new(kind, limits);
    lines.push(format!(
        "10 writer {}; calls {}; reliable {} builtin {} volatile {}; \
         window {} backlog {} retain {} slots {} bytes {} store {}",
        name,
        CALLS_PER_BLOCK,
        u8::from(kind.reliable),
        u8::from(kind.builtin),
        u8::from(kind.volatile),
        limits.window,
        limits.backlog,
        limits.retain,
        limits.slots,
        limits.slot_bytes,
        limits.slots * limits.slot_bytes,
    ));
    let mut made = 0;
    while made < CALLS_PER_BLOCK {
        let call = world.draw(prng, writer.last());
        let probe = world.probe(prng, writer.last());
        if !range.allows(&call, &writer) {
            continue;
        }
        let reply = writer.call(&call);
        range.took(&call);
        lines.push(format!(
            "{}; number {} wake {}; {}",
            writer_call(&call),
            reply.number,
            u8::from(reply.wake),
            writer_state(probe, &writer.sight(probe)),
        ));
        made += 1;
    }
}

fn writer_call(call: &WriterCall) -> String {
    match call {
        WriterCall::Admit {
            opted_in,
            bytes,
            way,
        } => {
            let way = match way {
                Way::Blocking => "admit_blocking",
                Way::Try => "try_admit",
            };
            format!(
                "11 {} opted {} bytes {}",
                way,
                u8::from(*opted_in),
                listed(bytes)
            )
        }
        WriterCall::SetAcked { frontier } => format!(
            "12 set_acked_frontier there {} at {}",
            u8::from(frontier.is_some()),
            frontier.unwrap_or(0)
        ),
        WriterCall::SetSent { frontier } => format!("13 set_sent_frontier {}", frontier),
        WriterCall::Evict { before } => format!("14 remove_changes_before {}", before),
    }
}

fn listed(bytes: &[u8]) -> String {
    let shown: Vec<String> = bytes.iter().map(|b| format!(" {}", b)).collect();
    format!("{}:{}", bytes.len(), shown.concat())
}

fn writer_state(probe: Probe, sight: &WriterSight) -> String {
    let fetched: Vec<String> = fetched_numbers(sight.first, sight.last, probe)
        .zip(&sight.bytes)
        .map(|(n, bytes)| match bytes {
            None => format!(" {} there 0", n),
            Some(bytes) => format!(" {} there 1 bytes {}", n, listed(bytes)),
        })
        .collect();
    // The frontier moves near the end; the last few and the ends show it.
    let asked: Vec<String> = asked_numbers(sight.last, probe)
        .zip(&sight.acked_through)
        .filter(|(n, _)| *n <= 1 || *n >= sight.last - ASKED_BELOW)
        .map(|(n, yes)| format!(" {} is {}", n, u8::from(*yes)))
        .collect();
    format!(
        "last {} first {}; get_by_sn {}:{}; is_acked_through {}:{}",
        sight.last,
        sight.first,
        fetched.len(),
        fetched.concat(),
        asked.len(),
        asked.concat()
    )
}
