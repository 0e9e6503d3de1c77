//! Sintemuno for Rust: what each line still lacks, which samples are kept, and
//! whether one more may be written.
//!
//! This crate is a layer of types over the proved library: every answer and
//! every change is made by one of its entry points (`include/sintemuno.h`), each
//! of which takes any input and is proved to do exactly what document 01 says.
//! The types own the rooms that the library is lent. They are allocated when a
//! value is made; no other call allocates, blocks or panics.
//!
//! A whole server needs a [`Writer`]; it decides nothing, and each event is one
//! step of the library. The parts can be had alone: [`RtpsReaderProxy`],
//! [`WriterSendBuffer`], [`ReaderList`]. What can't be done is an `Err` with
//! document 01's number, and has changed nothing.
//!
//! ```
//! use sintemuno::{Kind, Limits, Sent, SequenceNumber, SequenceNumberSet, Writer};
//!
//! let kind = Kind { reliable: true, builtin: false, volatile: true };
//! let limits = Limits { window: 8, backlog: 8, retain: 8, slots: 8, slot_bytes: 64 };
//! let mut plan = Writer::new(kind, limits, 4, 64)?;
//! plan.matched_reader_add(1, true)?;
//! let stop = plan.write(false, b"stop: sesame in the next batch")?;
//! assert_eq!(plan.send_first(1)?, Sent::Data(stop, b"stop: sesame in the next batch"));
//! plan.set_sent_frontier(stop)?;
//!
//! // It was lost: the line asks for it again.
//! let asked = SequenceNumberSet::new(stop, &[1])?;
//! plan.handle_ack_nack(1, &asked)?;
//! assert!(matches!(plan.send_first(1)?, Sent::Data(number, _) if number == stop));
//!
//! // Now the line has it.
//! let all_below = SequenceNumberSet::empty(SequenceNumber(2));
//! plan.handle_ack_nack(1, &all_below)?;
//! assert!(plan.buffer().is_acked_through(stop));
//! # Ok::<(), sintemuno::Refusal>(())
//! ```
//!
//! # Coming from RustDDS
//!
//! | `rtps_reader_proxy.rs` | here, on [`RtpsReaderProxy`] |
//! |---|---|
//! | `new(guid, qos, inline_qos)` | `new(cap)`; the crate's constant `MAX_UNSENT_CHANGES_PER_READER` is the cap |
//! | `handle_ack_nack(&AckSubmessage, last_available)` | the same, with the submessage's `reader_sn_state`; tells what was left out, and `Ahead` where the crate logs and ignores |
//! | `notify_new_cache_change`, `mark_change_sent`, `remove_from_unsent_set_all_before` | the same |
//! | `first_unsent_change`, `unsent_changes_iter`, `unsent_changes_count`, `acked_up_to_before` | the same; the iterator goes forward only |
//! | (a loop of the two above) | `take_unsent`, many at once |
//! | `insert_pending_gap(n)`, `set_pending_gap_up_to(end)` | the same, with the last number written |
//! | `get_pending_gap() -> &BTreeSet` | `get_pending_gap()`, an iterator |
//! | `mark_frags_requested`, `mark_frag_sent`, `frags_requested_iterator`, `repair_frags_requested` | the same |
//!
//! | `writer_send_buffer.rs` | here, on [`WriterSendBuffer`] |
//! |---|---|
//! | `new(guid, topic, reliable, builtin, volatile, window, backlog, retain)` | `new(Kind, Limits)`, with slots and bytes for each |
//! | `try_admit(options, data, waker)` | `try_admit(opted_in, payload)`; `WouldBlock`, and the caller waits |
//! | `admit_blocking(options, data, timeout)` | not here: `try_admit`, and again when told to wake |
//! | `get_by_sn -> Option<CacheChange>`, a clone | `get_by_sn -> Option<&[u8]>`, a part of the store |
//! | `set_acked_frontier`, `set_sent_frontier` | the same; they return whether to wake |
//! | `remove_changes_before`, `is_acked_through`, `first_change_sequence_number`, `last_change_sequence_number` | the same |
//! | `wait_for_acked_through`, `register_ack_waker` | not here: `is_acked_through`, when told to wake |
//!
//! `docs/DIFFERENCES.md` says where the answers differ, with the smallest input
//! for each. A [`Writer`] is the loop around the two files that the crate has
//! in its own writer:
//!
//! | event | here, on [`Writer`] | step of the library |
//! |---|---|---|
//! | a match, a departure | `matched_reader_add`, `matched_reader_remove` | `match_reader`, `depart_reader`: the frontier is stored with it |
//! | a write | `write` | `write`: every reader is told |
//! | an ACKNACK | `handle_ack_nack` | `take_ack_nack`: the record, the list and the frontier together |
//! | a NACK_FRAG | `mark_frags_requested` | `take_nack_frag` |
//! | sending | `send_first`, `send_many` | the same |
//! | something went out | `set_sent_frontier`, `mark_change_sent`, `mark_frag_sent` | the calls of that name |
//! | what a reader lacks | `reader`, which gives a [`ReaderView`] | the reader's questions |
#![deny(unsafe_code)]
#![warn(missing_docs)]

#[allow(missing_docs)]
pub mod ffi;
mod numbers;
mod reader_list;
mod reader_view;
mod record;
mod records;
mod refusal;
mod rtps_reader_proxy;
mod sent;
mod writer;
mod writer_send_buffer;

pub use ffi::{
    FragmentNumber, FragmentNumberSet, Kind, Limits, ReaderHead, SequenceNumber, SequenceNumberSet,
};
pub use reader_list::ReaderList;
pub use reader_view::ReaderView;
pub use refusal::{Refusal, Result};
pub use rtps_reader_proxy::RtpsReaderProxy;
pub use sent::{Sent, SentMany};
pub use writer::{Acknowledged, Writer};
pub use writer_send_buffer::WriterSendBuffer;
