//! Admission and fetch.

use sintemuno::{Kind, Limits, SequenceNumber, WriterSendBuffer};

use crate::meter::{Meter, CRATE, LIBRARY};

const SLOTS: u64 = 64;

/// A best-effort writer that keeps the last 64 samples: each write trims. Its
/// store is full before anything is measured.
fn library_writer(bytes: &[u8]) -> WriterSendBuffer {
    let kind = Kind {
        reliable: false,
        builtin: false,
        volatile: true,
    };
    let limits = Limits {
        window: SLOTS,
        backlog: SLOTS,
        retain: SLOTS,
        slots: SLOTS,
        slot_bytes: 1024,
    };
    let mut writer = WriterSendBuffer::new(kind, limits).expect("allowed limits");
    for _ in 0..SLOTS {
        writer.try_admit(false, bytes).expect("it never blocks");
    }
    writer
}

fn crate_writer(bytes: &[u8]) -> oracle::Writer {
    let kind = oracle::Kind {
        reliable: false,
        builtin: false,
        volatile: true,
    };
    let limits = oracle::Limits {
        window: SLOTS as usize,
        backlog: SLOTS as usize,
        retain: SLOTS as usize,
    };
    let writer = oracle::Writer::new(kind, limits);
    for _ in 0..SLOTS {
        writer.try_admit(false, bytes).expect("it never blocks");
    }
    writer
}

pub fn admission_and_fetch(meter: &mut Meter) {
    const TIMES: u64 = 256;
    for length in [16, 1024] {
        let bytes = vec![7; length];
        let name = format!("admission of {} bytes", length);
        meter.row(&name, LIBRARY, &[library_writer(&bytes)], TIMES, |writer| {
            let mut sum = 0;
            for _ in 0..TIMES {
                sum += writer.try_admit(false, &bytes).expect("never blocks").0;
            }
            sum as u64
        });
        // A clone of the crate's is a handle on the same buffer, which goes on
        // as it was: full, and trimmed at each write.
        let writer = &crate_writer(&bytes);
        meter.row(&name, CRATE, &[writer], TIMES, |writer| {
            let mut sum = 0;
            for _ in 0..TIMES {
                sum += writer.try_admit(false, &bytes).expect("never blocks");
            }
            sum as u64
        });

        let name = format!("fetch of {} bytes", length);
        let held = 1..=SLOTS as i64;
        meter.row(&name, LIBRARY, &[library_writer(&bytes)], SLOTS, |writer| {
            let bytes = held.clone().map(|n| writer.get_by_sn(SequenceNumber(n)));
            bytes.map(|b| b.expect("held").len() as u64).sum()
        });
        meter.row(&name, CRATE, &[&crate_writer(&bytes)], SLOTS, |writer| {
            let bytes = held.clone().map(|n| writer.get_by_sn(n));
            bytes.map(|b| b.expect("held").len() as u64).sum()
        });
    }
}
