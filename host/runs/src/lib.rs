//! Runs of a subject (the model, a faulty copy of it, or the linked library)
//! beside the crate inside document 01's compared range, and against the model
//! on any calls at all.

pub mod against;
pub mod beside;
pub mod calls;
pub mod draw_any;
pub mod draw_list;
pub mod draw_reader;
pub mod draw_writer;
pub mod exhaustive;
pub mod faults;
pub mod forms;
pub mod library_subject;
pub mod list_faults;
pub mod model_subject;
pub mod oracle_subject;
pub mod prng;
pub mod range;
pub mod raw;
pub mod reader_faults;
pub mod replay;
pub mod sight;
pub mod step_faults;
pub mod steps;
pub mod subject;
pub mod trace_lines;
pub mod writer_faults;

/// Whether the longest runs are to be shorter, as for an emulator: RUNS_SHORT.
pub fn short() -> bool {
    std::env::var_os("RUNS_SHORT").is_some()
}
