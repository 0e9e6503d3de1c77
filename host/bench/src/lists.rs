//! Calls on the reader list, which the crate doesn't have: the library alone.

use sintemuno::{ReaderList, SequenceNumber};

use crate::meter::{Meter, LIBRARY};

pub fn list_calls(meter: &mut Meter) {
    for readers in [1, 2, 8, 64] {
        let mut list = ReaderList::new(readers).expect("1 to 64");
        for id in 1..=readers as u64 {
            list.matched_reader_add(id, true, 64).expect("room");
        }
        let states = vec![list; 64];
        let name = format!("frontier over {} readers", readers);
        meter.row(&name, LIBRARY, &states, 1, |list| {
            list.frontier().map_or(0, |n| n.0 as u64)
        });
        let name = format!("set_acked among {} readers", readers);
        meter.row(&name, LIBRARY, &states, 1, |list| {
            list.set_acked(1, SequenceNumber(9)).expect("there");
            0
        });
    }
}
