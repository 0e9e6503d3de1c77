pub(crate) mod constant;
pub(crate) mod reader;
pub(crate) mod transmit;

// Unchanged files: whatever a newer compiler says of them is not ours to mend.
#[allow(warnings)]
#[allow(clippy::all)]
#[rustfmt::skip]
pub(crate) mod rtps_reader_proxy;
#[allow(warnings)]
#[allow(clippy::all)]
#[rustfmt::skip]
pub(crate) mod writer_send_buffer;
