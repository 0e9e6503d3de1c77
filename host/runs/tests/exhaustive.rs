//! Short sequences, all of them: the model and the library beside the crate.

use model::{FragmentSet, Kind, Limits, NumberSet};
use runs::{
    calls::{ReaderCall, Way, WriterCall},
    exhaustive,
    library_subject::Library,
    model_subject::Model,
    subject::Subjects,
};

fn ack(base: i64, members: &[i64], last: i64) -> ReaderCall {
    let set = NumberSet::of(base, members).unwrap();
    ReaderCall::Ack { set, last }
}

fn ask(sample: i64, base: u32, members: &[u32]) -> ReaderCall {
    let set = FragmentSet::of(base, members).unwrap();
    ReaderCall::Request { sample, set }
}

fn frag_sent(sample: i64, fragment: u32) -> ReaderCall {
    ReaderCall::FragSent { sample, fragment }
}

/// Caps where they may be chosen; the built-in one where it is fixed.
fn caps() -> Vec<usize> {
    oracle::fixed_cap().map_or(vec![1, 2, 3], |cap| vec![cap])
}

/// The length of the sequences.
fn length() -> u32 {
    if runs::short() {
        4
    } else {
        5
    }
}

/// That so many calls were compared; sequences of four have a tenth, or so.
fn enough(compared: u64, least: u64) {
    println!("{} calls", compared);
    assert!(compared > if length() == 5 { least } else { least / 20 });
}

fn acknowledgements_and_new_numbers<S: Subjects + Default>() {
    let alphabet = [
        ack(0, &[], 2),
        ack(1, &[1, 2], 2),
        ack(2, &[2, 3], 3),
        ack(2, &[3, 5], 2),
        ack(3, &[], 2),
        ack(4, &[4], 2),
        ReaderCall::Notify { number: 1 },
        ReaderCall::Notify { number: 2 },
        ReaderCall::Notify { number: 4 },
        ReaderCall::MarkSent { number: 2 },
        ReaderCall::RemoveBefore { number: 2 },
    ];
    for cap in caps() {
        let compared = exhaustive::readers(&S::default(), cap, &alphabet, length()).unwrap();
        enough(compared, 100_000);
    }
}

fn gaps<S: Subjects + Default>() {
    let gap = |number| ReaderCall::Gap { number, last: 4 };
    let up_to = |end| ReaderCall::GapUpTo { end, last: 4 };
    let alphabet = [
        gap(1),
        gap(2),
        gap(4),
        up_to(0),
        up_to(1),
        up_to(3),
        ack(2, &[], 4),
        ack(3, &[3], 4),
        ack(5, &[], 4),
    ];
    let cap = caps()[0];
    let compared = exhaustive::readers(&S::default(), cap, &alphabet, length()).unwrap();
    enough(compared, 100_000);
}

fn fragments<S: Subjects + Default>() {
    let alphabet = [
        ask(1, 1, &[1, 3]),
        ask(1, 2, &[2]),
        ask(1, 1, &[]),
        ask(2, 2, &[2]),
        frag_sent(1, 1),
        frag_sent(1, 2),
        frag_sent(1, 3),
        frag_sent(2, 2),
        ack(2, &[], 4),
    ];
    let cap = caps()[0];
    let compared = exhaustive::readers(&S::default(), cap, &alphabet, length()).unwrap();
    enough(compared, 50_000);
}

fn admit(opted_in: bool, way: Way) -> WriterCall {
    WriterCall::Admit {
        opted_in,
        bytes: if opted_in { vec![1, 2] } else { vec![3] },
        way,
    }
}

fn kinds() -> Vec<Kind> {
    let flags = [false, true];
    let mut kinds = Vec::new();
    for reliable in flags {
        for builtin in flags {
            for volatile in flags {
                kinds.push(Kind {
                    reliable,
                    builtin,
                    volatile,
                });
            }
        }
    }
    kinds
}

fn writers_of_every_kind<S: Subjects + Default>() {
    let set_acked = |frontier| WriterCall::SetAcked { frontier };
    let alphabet = [
        admit(false, Way::Blocking),
        admit(true, Way::Try),
        set_acked(None),
        set_acked(Some(0)),
        set_acked(Some(2)),
        set_acked(Some(3)),
        WriterCall::SetSent { frontier: 1 },
        WriterCall::SetSent { frontier: 2 },
        WriterCall::Evict { before: 2 },
    ];
    let mut compared = 0;
    for kind in kinds() {
        for (window, backlog, retain) in [(1, 9, 1), (2, 1, 0), (0, 2, 2)] {
            let limits = Limits {
                window,
                backlog,
                retain,
                slots: 3,
                slot_bytes: 2,
            };
            compared +=
                exhaustive::writers(&S::default(), kind, limits, &alphabet, length()).unwrap();
        }
    }
    enough(compared, 1_000_000);
}

macro_rules! with {
    ($name:ident, $subjects:ident, $($test:ident),*) => {
        mod $name {
            $(
                #[test]
                fn $test() {
                    super::$test::<super::$subjects>();
                }
            )*
        }
    };
}

with!(
    the_model,
    Model,
    acknowledgements_and_new_numbers,
    gaps,
    fragments,
    writers_of_every_kind
);

with!(
    the_library,
    Library,
    acknowledgements_and_new_numbers,
    gaps,
    fragments,
    writers_of_every_kind
);
