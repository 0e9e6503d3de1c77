//! Operations on one reader.

use sintemuno::{
    FragmentNumber, FragmentNumberSet, RtpsReaderProxy, SequenceNumber, SequenceNumberSet,
};

use crate::meter::{Meter, CRATE, LIBRARY};

/// So many equal states, each worked on once.
const STATES: usize = 64;

/// The crate has one cap for all; none of the sets here passes the smallest cap
/// named, and the crate does nothing else with it.
const CRATE_CAP: usize = 1024;

fn library_reader(cap: usize, unsent: impl Iterator<Item = i64>) -> RtpsReaderProxy {
    let mut reader = RtpsReaderProxy::new(cap).expect("an allowed cap");
    for number in unsent {
        let number = SequenceNumber(number);
        reader.notify_new_cache_change(number).expect("a sample");
    }
    reader
}

fn crate_reader(unsent: impl Iterator<Item = i64>) -> oracle::Reader {
    let mut reader = oracle::Reader::new(CRATE_CAP);
    for number in unsent {
        reader.notify_new_cache_change(number);
    }
    reader
}

/// An ACKNACK of a reader that has all below 1,000 and asks for the first
/// `asked` from there. What is unsent are the `held` numbers that end at 2,000;
/// or, where both wouldn't fit, the first from 1,000 on, asked for or not.
pub fn acknowledgements(meter: &mut Meter) {
    let sizes = [
        (64, 4),
        (256, 4),
        (256, 256),
        (1024, 4),
        (1024, 256),
        (1024, 1000),
    ];
    for (cap, held) in sizes {
        for asked in [0, 1, 32, 256] {
            let apart = held + asked <= cap as i64;
            if !apart && asked > held {
                continue; // past the cap, where the crate keeps all
            }
            let first = if apart { 2001 - held } else { 1000 };
            let unsent = first..first + held;
            acknowledgement(meter, cap, unsent, asked);
        }
    }
}

fn acknowledgement(meter: &mut Meter, cap: usize, unsent: std::ops::Range<i64>, asked: i64) {
    let held = unsent.end - unsent.start;
    let name = format!("ack, cap {}, {} unsent, {} asked", cap, held, asked);
    let numbers: Vec<u64> = (1000..1000 + asked as u64).collect();
    let set = SequenceNumberSet::new(SequenceNumber(1000), &numbers).expect("within 256");
    let states = vec![library_reader(cap, unsent.clone()); STATES];
    meter.row(&name, LIBRARY, &states, 1, |reader| {
        let left_out = reader.handle_ack_nack(&set, SequenceNumber(2000));
        left_out.expect("taken") as u64
    });
    let states = vec![crate_reader(unsent); STATES];
    let (count, words) = (set.count, set.words);
    meter.row(&name, CRATE, &states, 1, |reader| {
        reader.handle_ack_nack(1000, count, words, 2000);
        0
    });
}

/// Each new number is told, asked for and marked sent, beside so many others.
pub fn one_by_one(meter: &mut Meter) {
    const TIMES: i64 = 16;
    let new = 1001..1001 + TIMES;
    for (cap, held) in [(64, 4), (256, 4), (256, 200), (1024, 4), (1024, 1000)] {
        let unsent = 1001 - held..1001;
        let library = vec![library_reader(cap, unsent.clone()); STATES];
        let crates = vec![crate_reader(unsent); STATES];

        let name = format!("notify, cap {}, {} unsent", cap, held);
        meter.row(&name, LIBRARY, &library, TIMES as u64, |reader| {
            for number in new.clone() {
                let number = SequenceNumber(number);
                reader.notify_new_cache_change(number).expect("a sample");
            }
            0
        });
        meter.row(&name, CRATE, &crates, TIMES as u64, |reader| {
            new.clone().for_each(|n| reader.notify_new_cache_change(n));
            0
        });

        let name = format!("notify, first, mark, cap {}, {} unsent", cap, held);
        meter.row(&name, LIBRARY, &library, TIMES as u64, |reader| {
            let mut sum = 0;
            for number in new.clone() {
                let number = SequenceNumber(number);
                reader.notify_new_cache_change(number).expect("a sample");
                let first = reader.first_unsent_change().expect("one");
                reader.mark_change_sent(first).expect("any number");
                sum += first.0 as u64;
            }
            sum
        });
        meter.row(&name, CRATE, &crates, TIMES as u64, |reader| {
            let mut sum = 0;
            for number in new.clone() {
                reader.notify_new_cache_change(number);
                let first = reader.first_unsent_change().expect("one");
                reader.mark_change_sent(first);
                sum += first as u64;
            }
            sum
        });
    }
}

/// The same with the first number taken and marked in one call.
pub fn one_by_one_in_two_calls(meter: &mut Meter) {
    const TIMES: i64 = 16;
    let new = 1001..1001 + TIMES;
    for (cap, held) in [(64, 4), (256, 4), (1024, 4)] {
        let unsent = 1001 - held..1001;
        let name = format!("notify, take one, cap {}, {} unsent", cap, held);
        let states = vec![library_reader(cap, unsent.clone()); STATES];
        meter.row(&name, LIBRARY, &states, TIMES as u64, |reader| {
            let mut sum = 0;
            for number in new.clone() {
                let number = SequenceNumber(number);
                reader.notify_new_cache_change(number).expect("a sample");
                let mut first = [0];
                reader.take_unsent(&mut first).expect("any room");
                sum += first[0];
            }
            sum
        });
        let states = vec![crate_reader(unsent); STATES];
        meter.row(&name, CRATE, &states, TIMES as u64, |reader| {
            let mut sum = 0;
            for number in new.clone() {
                reader.notify_new_cache_change(number);
                let first = reader.first_unsent_change().expect("one");
                reader.mark_change_sent(first);
                sum += first as u64;
            }
            sum
        });
    }
}

/// The first unsent numbers taken at once; the crate's way is one by one.
pub fn batches(meter: &mut Meter) {
    for (cap, batch) in [
        (64, 4),
        (64, 32),
        (256, 4),
        (256, 32),
        (256, 256),
        (1024, 4),
        (1024, 32),
        (1024, 256),
    ] {
        let unsent = 1..=batch as i64;
        let name = format!("{} taken, cap {}", batch, cap);
        let states = vec![library_reader(cap, unsent.clone()); STATES];
        meter.row(&name, LIBRARY, &states, 1, |reader| {
            let mut out = [0; 256];
            let taken = reader.take_unsent(&mut out[..batch]).expect("any room");
            taken.iter().sum()
        });
        let states = vec![crate_reader(unsent); STATES];
        meter.row(&name, CRATE, &states, 1, |reader| {
            let mut sum = 0;
            for _ in 0..batch {
                let first = reader.first_unsent_change().expect("one");
                reader.mark_change_sent(first);
                sum += first as u64;
            }
            sum
        });
    }
}

/// One fragment of 4,096, the last or the first: asked for where nothing is,
/// found as the next, and marked sent, which leaves nothing; then all three.
pub fn fragments(meter: &mut Meter) {
    for fragment in [4096, 1] {
        let set = FragmentNumberSet::new(FragmentNumber(fragment), &[fragment.into()]);
        let set = set.expect("one number");
        let ask = |reader: &mut RtpsReaderProxy| -> u64 {
            let asked = reader.mark_frags_requested(SequenceNumber(1), &set);
            asked.expect("in range");
            0
        };
        let next = |reader: &mut RtpsReaderProxy| -> u64 {
            let next = reader.frags_requested_iterator().next();
            next.expect("one").1 .0.into()
        };
        let mark = |reader: &mut RtpsReaderProxy| -> u64 {
            let sent = reader.mark_frag_sent(SequenceNumber(1), FragmentNumber(fragment));
            sent.expect("any numbers");
            0
        };
        let crate_ask = |reader: &mut oracle::Reader| -> u64 {
            reader.mark_frags_requested(1, set.base.0, set.count, set.words);
            0
        };
        let crate_next = |reader: &mut oracle::Reader| -> u64 {
            reader.first_frag_requested().expect("one").1.into()
        };
        let crate_mark = |reader: &mut oracle::Reader| -> u64 {
            reader.mark_frag_sent(1, fragment);
            0
        };

        let none = vec![library_reader(64, 0..0); STATES];
        let mut one = none.clone();
        for reader in &mut one {
            ask(reader);
        }
        let crate_none = vec![crate_reader(0..0); STATES];
        let mut crate_one = crate_none.clone();
        for reader in &mut crate_one {
            crate_ask(reader);
        }

        let name = format!("fragment {} asked for", fragment);
        meter.row(&name, LIBRARY, &none, 1, ask);
        meter.row(&name, CRATE, &crate_none, 1, crate_ask);
        let name = format!("next fragment, only {} asked", fragment);
        meter.row(&name, LIBRARY, &one, 1, next);
        meter.row(&name, CRATE, &crate_one, 1, crate_next);
        let name = format!("fragment {} marked sent", fragment);
        meter.row(&name, LIBRARY, &one, 1, mark);
        meter.row(&name, CRATE, &crate_one, 1, crate_mark);
        let name = format!("fragment {} asked for, next, marked", fragment);
        meter.row(&name, LIBRARY, &none, 1, |reader| {
            ask(reader) + next(reader) + mark(reader)
        });
        meter.row(&name, CRATE, &crate_none, 1, |reader| {
            crate_ask(reader) + crate_next(reader) + crate_mark(reader)
        });
    }
}
