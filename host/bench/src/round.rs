//! A clean round with 64 readers, each of which lacks the last 8 of 32 samples:
//! its ACKNACK, what it asked for sent (by the library's step for many), its
//! second ACKNACK; the frontier stored after each ACKNACK.

use sintemuno::{Kind, Limits, Sent, SequenceNumber, SequenceNumberSet, Writer};

use crate::meter::{Meter, CRATE, LIBRARY};

const READERS: u64 = 64;
const WRITTEN: i64 = 32;
const LACKED: i64 = 8;

pub fn clean_round(meter: &mut Meter) {
    let base = WRITTEN + 1 - LACKED;
    let asked: Vec<u64> = (base as u64..=WRITTEN as u64).collect();
    let set = SequenceNumberSet::new(SequenceNumber(base), &asked).expect("within 256");
    for cap in [64, 1024] {
        let name = format!("a clean round with 64 readers, cap {}", cap);
        let states = [library_writer(cap)];
        meter.row(&name, LIBRARY, &states, READERS, |writer| {
            library_round(writer, &set)
        });
        let CrateWriter { buffer, readers } = crate_writer();
        meter.row(&name, CRATE, &[readers], READERS, |readers| {
            crate_round(&buffer, readers, &set)
        });
    }
}

fn library_writer(cap: usize) -> Writer {
    let kind = Kind {
        reliable: true,
        builtin: false,
        volatile: true,
    };
    let limits = Limits {
        window: 64,
        backlog: 64,
        retain: 64,
        slots: 64,
        slot_bytes: 64,
    };
    let mut writer = Writer::new(kind, limits, READERS as usize, cap).expect("allowed");
    for id in 1..=READERS {
        writer.matched_reader_add(id, true).expect("room");
    }
    for _ in 0..WRITTEN {
        writer.write(false, &[7; 64]).expect("room");
    }
    let last = SequenceNumber(WRITTEN);
    writer.set_sent_frontier(last).expect("written");
    for id in 1..=READERS {
        while writer.send_many(id, Writer::MOST_SENT).is_ok() {}
    }
    writer
}

fn library_round(writer: &mut Writer, set: &SequenceNumberSet) -> u64 {
    let mut sum = 0;
    let all = SequenceNumberSet::empty(SequenceNumber(WRITTEN + 1));
    for id in 1..=READERS {
        writer.handle_ack_nack(id, set).expect("taken");
        // All that is unsent: fewer than a call can send.
        for sent in writer.send_many(id, Writer::MOST_SENT).expect("unsent") {
            sum += match sent {
                Sent::Data(_, bytes) => bytes.len() as u64,
                Sent::Gap(_) => 1,
            };
        }
        writer.handle_ack_nack(id, &all).expect("taken");
    }
    sum
}

struct CrateWriter {
    buffer: oracle::Writer,
    readers: Vec<oracle::Reader>,
}

fn crate_writer() -> CrateWriter {
    let kind = oracle::Kind {
        reliable: true,
        builtin: false,
        volatile: true,
    };
    let limits = oracle::Limits {
        window: 64,
        backlog: 64,
        retain: 64,
    };
    let buffer = oracle::Writer::new(kind, limits);
    buffer.store_acked_frontier(Some(1));
    for _ in 0..WRITTEN {
        buffer.try_admit(false, &[7; 64]).expect("room");
    }
    let readers = vec![oracle::Reader::new(1024); READERS as usize];
    CrateWriter { buffer, readers }
}

/// The frontier, stored as the crate's own writer has to.
fn store_frontier(buffer: &oracle::Writer, readers: &[oracle::Reader]) {
    let acked = readers.iter().map(oracle::Reader::acked_up_to_before);
    buffer.store_acked_frontier(acked.min());
}

fn crate_round(
    buffer: &oracle::Writer,
    readers: &mut [oracle::Reader],
    set: &SequenceNumberSet,
) -> u64 {
    let mut sum = 0;
    for place in 0..readers.len() {
        let reader = &mut readers[place];
        reader.handle_ack_nack(set.base.0, set.count, set.words, WRITTEN);
        store_frontier(buffer, readers);
        let reader = &mut readers[place];
        while let Some(number) = reader.first_unsent_change() {
            sum += match buffer.get_by_sn(number) {
                Some(bytes) => bytes.len() as u64,
                None => 1,
            };
            reader.mark_change_sent(number);
        }
        reader.handle_ack_nack(WRITTEN + 1, 0, [0; 8], WRITTEN);
        store_frontier(buffer, readers);
    }
    sum
}
