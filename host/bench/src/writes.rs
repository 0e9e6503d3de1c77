//! A write with 64 readers: the sample is admitted, and every reader told of its
//! number.

use sintemuno::{Kind, Limits, Writer};

use crate::meter::{Meter, CRATE, LIBRARY};

const READERS: u64 = 64;
const SLOTS: u64 = 64;
const TIMES: u64 = 16;
const SAMPLE: [u8; 64] = [7; 64];

/// A best-effort writer that keeps the last 64 samples: each write trims. Its
/// store is full before anything is measured, and its readers lack nothing.
fn library_writer(cap: usize) -> Writer {
    let kind = Kind {
        reliable: false,
        builtin: false,
        volatile: true,
    };
    let limits = Limits {
        window: SLOTS,
        backlog: SLOTS,
        retain: SLOTS,
        slots: SLOTS,
        slot_bytes: 64,
    };
    let mut writer = Writer::new(kind, limits, READERS as usize, cap).expect("allowed");
    for id in 1..=READERS {
        writer.matched_reader_add(id, true).expect("room");
    }
    for _ in 0..SLOTS {
        writer.write(false, &SAMPLE).expect("it never blocks");
    }
    for id in 1..=READERS {
        while writer.send_many(id, Writer::MOST_SENT).is_ok() {}
    }
    writer
}

fn crate_writer() -> oracle::Writer {
    let kind = oracle::Kind {
        reliable: false,
        builtin: false,
        volatile: true,
    };
    let limits = oracle::Limits {
        window: SLOTS as usize,
        backlog: SLOTS as usize,
        retain: SLOTS as usize,
    };
    let writer = oracle::Writer::new(kind, limits);
    for _ in 0..SLOTS {
        writer.try_admit(false, &SAMPLE).expect("it never blocks");
    }
    writer
}

pub fn told_to_all(meter: &mut Meter) {
    for cap in [64, 1024] {
        let name = format!("a write with 64 readers, cap {}", cap);
        let states = [library_writer(cap)];
        meter.row(&name, LIBRARY, &states, TIMES, |writer| {
            let mut sum = 0;
            for _ in 0..TIMES {
                sum += writer.write(false, &SAMPLE).expect("never blocks").0;
            }
            sum as u64
        });
        // The crate's buffer goes on as it was, full and trimmed at each write.
        let buffer = crate_writer();
        let readers = vec![oracle::Reader::new(1024); READERS as usize];
        meter.row(&name, CRATE, &[readers], TIMES, |readers| {
            let mut sum = 0;
            for _ in 0..TIMES {
                let number = buffer.try_admit(false, &SAMPLE).expect("never blocks");
                for reader in readers.iter_mut() {
                    reader.notify_new_cache_change(number);
                }
                sum += number;
            }
            sum as u64
        });
    }
}
