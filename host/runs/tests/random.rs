//! Random runs of the model and of the library beside the crate, of the library
//! against the model, and whether the draws reach every answer that the calls
//! can give.

use runs::{against, beside, library_subject::Library, model_subject::Model, raw};

const CALLS: u64 = 200_000;

#[test]
fn the_model_beside_the_crate() {
    let tally = beside::run(&Model, 2024, CALLS).unwrap();
    println!("{:?}", tally);
    // A run that hardly meets the interesting cases would prove little.
    assert!(tally.reader > CALLS / 4 && tally.writer > CALLS / 4);
    assert!(tally.outside < CALLS / 4);
    assert!(tally.ignored_acks > CALLS / 100);
    assert!(tally.late_acks > CALLS / 100);
    assert!(tally.would_block > CALLS / 100);
}

#[test]
fn any_calls_reach_every_answer() {
    let answers = against::run(&Model, 7, CALLS / 2).unwrap();
    println!("{:?}", answers);
    for answer in [0, 2, 3, 4, 5, 6, 7, 8, 9, 10, 11, 12, 13] {
        assert!(
            answers.get(&answer).copied() > Some(20),
            "answer {}",
            answer
        );
    }
}

#[test]
fn the_library_beside_the_crate() {
    beside::run(&Library, 2025, CALLS).unwrap();
}

#[test]
fn the_library_against_the_model() {
    let answers = against::run(&Library, 7, CALLS / 2).unwrap();
    assert_eq!(answers, against::run(&Model, 7, CALLS / 2).unwrap());
}

/// The entries, and the numbers that each can answer besides 0.
const ENTRIES: [(&str, &[u32]); 43] = [
    ("reader_new", &[13]),
    ("reader_first_unsent_change", &[1, 14]),
    ("reader_next_unsent_change", &[1, 14]),
    ("reader_notify_new_cache_change", &[1, 2]),
    ("reader_mark_change_sent", &[1]),
    ("reader_remove_from_unsent_set_all_before", &[1]),
    ("reader_take_unsent", &[1]),
    ("reader_handle_ack_nack", &[1, 2, 3, 12]),
    ("reader_insert_pending_gap", &[1, 2, 9]),
    ("reader_set_pending_gap_up_to", &[1, 2]),
    ("reader_next_pending_gap", &[1, 14]),
    ("reader_mark_frags_requested", &[1, 2, 3, 10]),
    ("reader_mark_frag_sent", &[1]),
    ("reader_next_frag_requested", &[1, 14]),
    ("reader_repair_frags_requested", &[1]),
    ("set_of_numbers", &[2, 3]),
    ("set_list_members", &[2, 3]),
    ("set_next_member", &[2, 3, 14]),
    ("fragment_set_of_numbers", &[2, 3]),
    ("fragment_set_list_members", &[3]),
    ("fragment_set_next_member", &[3, 14]),
    ("writer_new", &[13]),
    ("writer_has_room", &[1]),
    ("writer_admit", &[1, 4, 5, 6, 7]),
    ("writer_locate", &[1, 14]),
    ("writer_set_acked_frontier", &[1, 2]),
    ("writer_set_sent_frontier", &[1, 2]),
    ("writer_remove_changes_before", &[1, 2]),
    ("writer_is_acked_through", &[1]),
    ("writer_first_change_sequence_number", &[1]),
    ("writer_last_change_sequence_number", &[1]),
    ("list_frontier", &[1]),
    ("list_matched_reader_lookup", &[1, 11]),
    ("list_matched_reader_add", &[1, 8, 11, 13]),
    ("list_matched_reader_remove", &[1, 11]),
    ("list_set_acked", &[1, 2, 11]),
    ("send_first", &[1, 14]),
    ("send_many", &[1, 14]),
    ("match_reader", &[1, 2, 8, 11, 13]),
    ("depart_reader", &[1, 2, 11]),
    ("take_ack_nack", &[1, 2, 3, 11, 12]),
    ("take_nack_frag", &[1, 2, 3, 10, 11]),
    ("write", &[1, 4, 5, 6, 7]),
];

#[test]
fn every_entry_gives_each_of_its_answers_on_anything() {
    let tally = raw::run(9, CALLS).unwrap();
    assert_eq!(tally.len(), ENTRIES.len());
    for (entry, refusals) in ENTRIES {
        let mut answers = vec![0];
        answers.extend(refusals);
        let met: Vec<u32> = tally[entry].keys().copied().collect();
        assert_eq!(met, answers, "{}", entry);
    }
}
