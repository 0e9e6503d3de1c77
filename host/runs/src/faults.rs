//! Faulty libraries, to see that the runs catch them: a sound one, the model or
//! the proved library, with one fault in its call layer.

use model::{Kind, Limits, Reader, ReaderList, SendBuffer};

pub use crate::list_faults::LIST_FAULTS;
pub use crate::reader_faults::{FaultyReader, ReaderFault, READER_FAULTS};
pub use crate::writer_faults::{FaultyWriter, WriterFault, WRITER_FAULTS};
use crate::{
    list_faults::{FaultyList, ListFault},
    subject::Subjects,
};

/// Which run has to catch a fault. Where document 01 differs from the crate,
/// only the model can.
#[derive(Clone, Copy, PartialEq, Eq, Debug)]
pub enum CaughtBy {
    Crate,
    ModelOnly,
}

#[derive(Default)]
pub struct Faulty<S> {
    pub sound: S,
    pub reader: Option<ReaderFault>,
    pub writer: Option<WriterFault>,
    pub list: Option<ListFault>,
    /// Creation takes any cap and limits, clamped.
    pub never_13: bool,
}

impl<S: Subjects + Clone> Subjects for Faulty<S> {
    type Reader = FaultyReader<S>;
    type Writer = FaultyWriter<S>;
    type List = FaultyList<S>;

    fn reader(&self, start: &Reader) -> FaultyReader<S> {
        FaultyReader {
            sound: self.sound.clone(),
            record: start.clone(),
            fault: self.reader,
        }
    }

    fn writer(&self, start: &SendBuffer) -> FaultyWriter<S> {
        FaultyWriter {
            sound: self.sound.clone(),
            record: start.clone(),
            gone: Default::default(),
            told: start.flow.acked,
            fault: self.writer,
        }
    }

    fn list(&self, start: &ReaderList) -> FaultyList<S> {
        FaultyList {
            sound: self.sound.clone(),
            record: start.clone(),
            fault: self.list,
        }
    }

    fn new_reader(&self, cap: u64) -> Result<Reader, u8> {
        let clamped = cap.clamp(1, 1024);
        self.sound
            .new_reader(if self.never_13 { clamped } else { cap })
    }

    fn new_writer(&self, kind: Kind, limits: Limits) -> Result<SendBuffer, u8> {
        self.sound.new_writer(kind, limits)
    }
}
