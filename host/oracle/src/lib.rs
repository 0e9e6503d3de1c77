//! The oracle: `rtps_reader_proxy.rs` and `writer_send_buffer.rs` of rustdds
//! 0.15.1, byte for byte (the build script tests it), over stand-ins for what
//! they import. STAND-INS.md lists what is therefore not the crate's own.
//!
//! The crate's items are private to it; `Reader` and `Writer` show them as
//! plain numbers and byte strings and add nothing.

// Stand-ins mirror the crate's names, used or not.
#[allow(dead_code)]
mod dds;
#[allow(dead_code)]
mod discovery;
#[allow(dead_code)]
mod messages;
#[allow(dead_code)]
mod network;
#[allow(dead_code)]
mod rtps;
#[allow(dead_code)]
mod structure;

mod reader;
mod writer;

pub use reader::Reader;
pub use writer::{Kind, Limits, Writer};

/// The cap that the build fixed, if it fixed one; otherwise each reader has
/// the one it is made with.
pub fn fixed_cap() -> Option<usize> {
    let text = option_env!("ORACLE_UNSENT_CAP").filter(|text| !text.is_empty());
    text.map(|text| text.parse().expect("tested by the build script"))
}
