//! Values at the ends of their ranges: the model and the library beside the
//! crate.

use model::{numbers::LAST_SAMPLE, FragmentSet, Kind, Limits, NumberSet};
use runs::{
    beside::{ReaderPair, WriterPair},
    calls::{ReaderCall, Way, WriterCall},
    library_subject::Library,
    model_subject::Model,
    sight::Probe,
    subject::{ReaderSubject, Subjects, WriterSubject},
};

type Pair<S> = ReaderPair<<S as Subjects>::Reader>;

fn pair<S: Subjects + Default>(cap: usize) -> Pair<S> {
    ReaderPair::new(&S::default(), oracle::fixed_cap().unwrap_or(cap))
}

/// Sets of 256 numbers need room; a build with a small fixed cap has none.
fn small_cap() -> bool {
    oracle::fixed_cap().map_or(false, |fixed| fixed < 300)
}

/// The call is in the compared range and both agree.
fn agree<R: ReaderSubject>(pair: &mut ReaderPair<R>, call: ReaderCall) {
    for number in [i64::MIN, 0, 1 << 32, LAST_SAMPLE, i64::MAX] {
        let probe = Probe {
            number,
            fragment: 4096,
        };
        // The first step makes the call; the others look again after a call
        // that changes nothing.
        let call = if number == i64::MIN {
            call.clone()
        } else {
            ReaderCall::MarkSent { number: 0 }
        };
        assert_eq!(pair.step(&call, probe), Ok(true));
    }
}

fn ack(base: i64, count: u32, last: i64) -> ReaderCall {
    let words = [u32::MAX; 8];
    let set = NumberSet { base, count, words };
    ReaderCall::Ack { set, last }
}

fn numbers_around_2_to_the_32<S: Subjects + Default>() {
    if small_cap() {
        return;
    }
    let edge = 1 << 32;
    let mut pair = pair::<S>(1024);
    agree(&mut pair, ack(edge - 100, 256, edge + 50));
    agree(&mut pair, ReaderCall::Notify { number: edge });
    agree(&mut pair, ack(edge, 0, edge));
    agree(&mut pair, ReaderCall::RemoveBefore { number: edge + 1 });
    agree(&mut pair, ack(edge + 1, 256, edge));
    agree(&mut pair, ack(edge + 2, 256, edge));
}

fn numbers_at_2_to_the_63<S: Subjects + Default>() {
    if small_cap() {
        return;
    }
    let last = LAST_SAMPLE;
    let mut pair = pair::<S>(1024);
    agree(&mut pair, ReaderCall::Notify { number: last });
    agree(&mut pair, ack(last - 255, 256, last));
    agree(&mut pair, ack(last - 254, 256, last));
    agree(&mut pair, ReaderCall::Gap { number: last, last });
    agree(&mut pair, ack(last, 2, last - 1));
    agree(&mut pair, ack(last, 1, last));
    agree(&mut pair, ack(last + 1, 1, last));
    let set = FragmentSet::of(4096, &[4096]).unwrap();
    agree(&mut pair, ReaderCall::Request { sample: last, set });
    assert_eq!(pair.subject.record().acked, i64::MAX);
}

/// 256 bits all asked, at a cap that just holds them.
fn full_sets_and_full_caps<S: Subjects + Default>() {
    for cap in [256, 257, 1024] {
        let mut pair = pair::<S>(cap);
        if small_cap() {
            return;
        }
        agree(&mut pair, ack(1, 256, 2000));
        for number in 250..=1300 {
            agree_once(&mut pair, ReaderCall::Notify { number });
        }
        agree(&mut pair, ReaderCall::Notify { number: 1 });
        agree(&mut pair, ack(1200, 0, 1290));
    }
}

fn agree_once<R: ReaderSubject>(pair: &mut ReaderPair<R>, call: ReaderCall) {
    let probe = Probe {
        number: 1,
        fragment: 1,
    };
    assert_eq!(pair.step(&call, probe), Ok(true));
}

/// 257 bits, the cap passed, a request of nothing: outside the range, so that
/// the crate isn't asked.
fn the_range_ends<S: Subjects + Default>() {
    let mut pair = pair::<S>(2);
    let probe = Probe {
        number: 0,
        fragment: 0,
    };
    let set = FragmentSet::of(1, &[]).unwrap();
    let outside = [
        ack(1, 257, 9),
        ack(-1, 0, 9),
        ack(0, 1, 9),
        ack(1, 0, -1),
        ack(1, 0, i64::MAX),
        ReaderCall::Notify { number: 0 },
        ReaderCall::Notify { number: i64::MAX },
        ReaderCall::Gap { number: 3, last: 2 },
        ReaderCall::GapUpTo { end: -1, last: 2 },
        ReaderCall::Request { sample: 1, set },
        ReaderCall::Request { sample: 0, set },
    ];
    for call in outside {
        assert_eq!(pair.step(&call, probe), Ok(false), "{:?}", call);
    }
}

fn gaps_and_fragments_to_the_full<S: Subjects + Default>() {
    let mut pair = pair::<S>(8);
    let last = 5000;
    for number in (2..=512).step_by(2) {
        agree_once(&mut pair, ReaderCall::Gap { number, last });
    }
    assert_eq!(pair.subject.record().gaps.len(), 256);
    agree(&mut pair, ReaderCall::GapUpTo { end: 4096, last });
    agree(&mut pair, ReaderCall::Gap { number: last, last });
    for sample in 1..=16 {
        let set = FragmentSet {
            base: 3841,
            count: 256,
            words: [u32::MAX; 8],
        };
        agree_once(&mut pair, ReaderCall::Request { sample, set });
    }
    agree(
        &mut pair,
        ReaderCall::FragSent {
            sample: 1,
            fragment: 4096,
        },
    );
    for fragment in 3841..=4096 {
        agree_once(
            &mut pair,
            ReaderCall::FragSent {
                sample: 2,
                fragment,
            },
        );
    }
    assert_eq!(pair.subject.record().frags.len(), 15);
}

/// 256 slots of 8,192 bytes, used more than once.
fn a_full_store<S: Subjects + Default>() {
    let kind = Kind {
        reliable: true,
        builtin: false,
        volatile: true,
    };
    let limits = Limits {
        window: (1 << 31) - 1,
        backlog: (1 << 31) - 1,
        retain: 256,
        slots: 256,
        slot_bytes: 8192,
    };
    let mut pair = WriterPair::new(&S::default(), kind, limits);
    let probe = Probe {
        number: 1,
        fragment: 0,
    };
    for n in 0..300usize {
        let call = WriterCall::Admit {
            opted_in: false,
            bytes: vec![n as u8; if n % 50 == 0 { 8192 } else { n % 7 }],
            way: Way::Try,
        };
        assert_eq!(pair.step(&call, probe), Ok(true));
    }
    assert_eq!(pair.subject.record().flow.first, 45);
}

macro_rules! with {
    ($name:ident, $subjects:ident, $($test:ident),*) => {
        mod $name {
            $(
                #[test]
                fn $test() {
                    super::$test::<super::$subjects>();
                }
            )*
        }
    };
}

with!(
    the_model,
    Model,
    numbers_around_2_to_the_32,
    numbers_at_2_to_the_63,
    full_sets_and_full_caps,
    the_range_ends,
    gaps_and_fragments_to_the_full,
    a_full_store
);

with!(
    the_library,
    Library,
    numbers_around_2_to_the_32,
    numbers_at_2_to_the_63,
    full_sets_and_full_caps,
    the_range_ends,
    gaps_and_fragments_to_the_full,
    a_full_store
);
