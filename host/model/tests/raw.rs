//! Raw records: what is written is read back, and each damage is seen.

use model::{
    raw::{RawReader, RawStore},
    FragmentSet, Kind, Limits, Reader, SendBuffer,
};

fn full_of_things() -> Reader {
    let mut r = Reader::new(4).unwrap();
    r.acked = 3;
    for n in [3, 5, 9] {
        r.notify_new_cache_change(n).unwrap();
    }
    r.set_pending_gap_up_to(4, 20).unwrap();
    r.insert_pending_gap(7, 20).unwrap();
    let set = FragmentSet::of(60, &[60, 64, 65]).unwrap();
    r.mark_frags_requested(5, &set).unwrap();
    r.mark_frags_requested(i64::MAX - 1, &set).unwrap();
    r
}

#[test]
fn read_back() {
    let reader = full_of_things();
    assert_eq!(RawReader::form(&reader).view(), Some(reader));
}

#[test]
fn damage_is_seen() {
    let good = RawReader::form(&full_of_things());
    let damages: [fn(&mut RawReader); 16] = [
        |r| r.acked = -1,
        |r| r.acked = 8, // above the gap member
        |r| r.cap = 5,
        |r| r.cap = 0,
        |r| r.prefix_end = -1,
        |r| r.prefix_end = i64::MAX,
        |r| r.prefix_end = 7,
        |r| r.unsent_count = 2,
        |r| r.unsent_count = 4,
        |r| r.unsent[1] = 3,
        |r| r.unsent[2] = 1 << 63,
        |r| r.unsent.push(0),
        |r| r.gaps[200] = 9,
        |r| r.frag_count = 17,
        |r| r.bits[0..64].fill(0),
        |r| r.bits[1023] = 1,
    ];
    for (place, damage) in damages.iter().enumerate() {
        let mut raw = good.clone();
        damage(&mut raw);
        assert_eq!(raw.view(), None, "damage {}", place);
    }
}

fn buffer() -> SendBuffer {
    let kind = Kind {
        reliable: false,
        builtin: false,
        volatile: false,
    };
    let limits = Limits {
        window: 1,
        backlog: 1,
        retain: 2,
        slots: 3,
        slot_bytes: 2,
    };
    let mut buffer = SendBuffer::new(kind, limits).unwrap();
    for bytes in [&b"a"[..], b"bc", b"", b"d"] {
        buffer.admit(false, bytes).unwrap();
    }
    buffer
}

#[test]
fn store() {
    let buffer = buffer();
    // Samples 3 and 4 in slots 2 and 0; slot 1 still has what was there.
    let raw = RawStore {
        bytes: b"d.bc..".to_vec(),
        lengths: vec![1, 2, 0],
    };
    assert_eq!(raw.view(&buffer.flow), Some(buffer.clone()));
    let mut short = raw.clone();
    short.bytes.pop();
    assert_eq!(short.view(&buffer.flow), None);
    let mut long = raw.clone();
    long.lengths[0] = 3;
    assert_eq!(long.view(&buffer.flow), None);
    // The length of a slot that holds no retained sample doesn't count.
    let mut unused = raw;
    unused.lengths[1] = 3;
    assert_eq!(unused.view(&buffer.flow), Some(buffer));
}
