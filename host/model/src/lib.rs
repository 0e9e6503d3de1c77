//! An independent model of document 01, written from its text alone: plain
//! sets and maps, no fixed room, no care for speed. It judges what the library
//! answers where the crate can't (refusals, capacities, the reader list, the
//! trace program), and stands beside the crate where it can.

pub mod coherent;
pub mod flow;
pub mod frags;
pub mod gaps;
pub mod list;
pub mod numbers;
pub mod other_end;
pub mod raw;
pub mod reader;
pub mod set;
pub mod steps;
pub mod store;
pub mod trace;
pub mod writer;

pub use flow::{Flow, Kind, Limits};
pub use list::{Head, ReaderList};
pub use numbers::{Answer, Refusal};
pub use other_end::ModelReader;
pub use reader::Reader;
pub use set::{FragmentSet, NumberSet};
pub use store::SendBuffer;
pub use writer::Writer;
