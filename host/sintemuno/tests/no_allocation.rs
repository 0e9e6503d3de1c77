//! Nothing is allocated after a writer is made: an allocator that counts.

use std::{
    alloc::{GlobalAlloc, Layout, System},
    cell::Cell,
};

use sintemuno::{
    FragmentNumber, FragmentNumberSet, Kind, Limits, SequenceNumber, SequenceNumberSet, Writer,
};

struct Counting;

thread_local!(static COUNT: Cell<u64> = Cell::new(0));

// The system's allocator, with a count of the calls that this thread makes.
unsafe impl GlobalAlloc for Counting {
    unsafe fn alloc(&self, layout: Layout) -> *mut u8 {
        COUNT.with(|count| count.set(count.get() + 1));
        System.alloc(layout)
    }

    unsafe fn dealloc(&self, pointer: *mut u8, layout: Layout) {
        System.dealloc(pointer, layout)
    }
}

#[global_allocator]
static ALLOCATOR: Counting = Counting;

fn allocations() -> u64 {
    COUNT.with(Cell::get)
}

#[test]
fn no_call_allocates() {
    let kind = Kind {
        reliable: true,
        builtin: false,
        volatile: true,
    };
    let limits = Limits {
        window: 100,
        backlog: 100,
        retain: 100,
        slots: 128,
        slot_bytes: 1024,
    };
    let mut plan = Writer::new(kind, limits, 64, 1024).unwrap();
    let made = allocations();
    assert!(made > 0);
    for id in 1..=64 {
        plan.matched_reader_add(id, true).unwrap();
    }
    for _ in 0..100 {
        let number = plan.write(false, &[7; 1024]).unwrap();
        plan.set_sent_frontier(number).unwrap();
    }
    assert!(plan.write(false, &[7; 1024]).is_err());
    let two = FragmentNumberSet::new(FragmentNumber(1), &[1, 4]).unwrap();
    for id in 1..=64 {
        assert!(plan.send_first(id).is_ok());
        let sent = plan.send_many(id, 9).unwrap();
        assert_eq!(sent.len(), 9);
        while plan.send_many(id, 1000).is_ok() {}
        let asked = SequenceNumberSet::new(SequenceNumber(3), &[3, 5, 90]).unwrap();
        plan.handle_ack_nack(id, &asked).unwrap();
        assert_eq!(plan.reader(id).unwrap().unsent_changes_iter().count(), 3);
        plan.mark_change_sent(id, SequenceNumber(5)).unwrap();
        plan.mark_frags_requested(id, SequenceNumber(9), &two)
            .unwrap();
        let pieces = plan.reader(id).unwrap().frags_requested_iterator();
        assert_eq!(pieces.count(), 2);
        plan.mark_frag_sent(id, SequenceNumber(9), FragmentNumber(4))
            .unwrap();
    }
    plan.remove_changes_before(SequenceNumber(3)).unwrap();
    for id in 1..=64 {
        plan.matched_reader_remove(id).unwrap();
    }
    assert_eq!(allocations(), made);
}
