//! What is tested. To plug in another library: implement these traits
//! (the records are plain numbers, so a library on lent rooms fills them from
//! its heads and rooms), then call `beside::run` and `against::run` with it.

use model::{Kind, Limits};

use crate::calls::{ListCall, ReaderCall, Reply, WriterCall};

pub trait ReaderSubject {
    fn call(&mut self, call: &ReaderCall) -> Reply;

    /// The whole record.
    fn record(&self) -> model::Reader;

    /// The questions, as the library answers them; `None` is 14.
    fn next_unsent(&self, from: i64) -> Option<i64>;
    fn next_pending_gap(&self, from: i64) -> Option<i64>;
    fn next_fragment(&self, from: u32) -> Option<(i64, u32)>;
    fn any_requested(&self) -> bool;
}

pub trait WriterSubject {
    fn call(&mut self, call: &WriterCall) -> Reply;

    /// The whole flow record with the retained samples.
    fn record(&self) -> model::SendBuffer;

    fn fetch(&self, number: i64) -> Option<Vec<u8>>;
    fn acked_through(&self, number: i64) -> bool;
}

/// The reader list, which the crate doesn't have.
pub trait ListSubject {
    fn call(&mut self, call: &ListCall) -> Reply;

    /// The readers by their ids: their order in the list has no meaning.
    fn record(&self) -> model::ReaderList;
}

/// Makes subjects that start from a coherent record.
pub trait Subjects {
    type Reader: ReaderSubject;
    type Writer: WriterSubject;
    type List: ListSubject;

    fn reader(&self, start: &model::Reader) -> Self::Reader;
    fn writer(&self, start: &model::SendBuffer) -> Self::Writer;
    fn list(&self, start: &model::ReaderList) -> Self::List;

    /// Creation with any cap or limits: the fresh record, or the number.
    fn new_reader(&self, cap: u64) -> Result<model::Reader, u8>;
    fn new_writer(&self, kind: Kind, limits: Limits) -> Result<model::SendBuffer, u8>;
}
