//! Stand-in: a retained sample with its number and payload.

use super::{guid::GUID, sequence_number::SequenceNumber};
use crate::dds::{ddsdata::DDSData, with_key::datawriter::WriteOptions};

#[derive(Clone, Debug)]
pub struct CacheChange {
    pub writer_guid: GUID,
    pub sequence_number: SequenceNumber,
    pub write_options: WriteOptions,
    pub data_value: DDSData,
}

impl CacheChange {
    pub fn new(
        writer_guid: GUID,
        sequence_number: SequenceNumber,
        write_options: WriteOptions,
        data_value: DDSData,
    ) -> Self {
        CacheChange {
            writer_guid,
            sequence_number,
            write_options,
            data_value,
        }
    }
}
