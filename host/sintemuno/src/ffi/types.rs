//! What crosses: the structs of `include/sintemuno.h`, field by field.

/// A sequence number: a written sample has 1 through 2^63-2.
#[repr(C)]
#[derive(Clone, Copy, Debug, PartialEq, Eq, PartialOrd, Ord, Hash, Default)]
pub struct SequenceNumber(pub i64);

/// A fragment number: 1 through 4,096. It can't be given where a sequence
/// number belongs:
///
/// ```compile_fail
/// # use sintemuno::{FragmentNumber, RtpsReaderProxy};
/// let mut line = RtpsReaderProxy::new(8).unwrap();
/// line.mark_change_sent(FragmentNumber(1));
/// ```
#[repr(C)]
#[derive(Clone, Copy, Debug, PartialEq, Eq, PartialOrd, Ord, Hash, Default)]
pub struct FragmentNumber(pub u32);

/// A number of document 01's table, 0 is done; and the place that it is about,
/// where a number has one: 0 in every answer of today.
#[repr(C)]
#[derive(Clone, Copy, Debug, PartialEq, Eq, Default)]
pub struct Answer {
    pub number: u32,
    pub place: u32,
}

/// The next sample number to look at; 0 is the start.
#[repr(C)]
#[derive(Clone, Copy, Debug, PartialEq, Eq, Default)]
pub struct Cursor {
    pub from: u64,
}

/// The next fragment to look at; 0 is the start.
#[repr(C)]
#[derive(Clone, Copy, Debug, PartialEq, Eq, Default)]
pub struct FragmentCursor {
    pub from: u64,
}

/// A set of sequence numbers as RTPS writes it. Bit i (from 0) is the bit of
/// worth 2^(31 - i mod 32) in word i div 32; it stands for base + i. Bits at
/// or past the count are ignored.
#[repr(C)]
#[derive(Clone, Copy, Debug, PartialEq, Eq, Default)]
pub struct SequenceNumberSet {
    pub base: SequenceNumber,
    pub count: u32,
    pub words: [u32; 8],
}

/// A set of fragment numbers: the same form on a 32-bit base.
#[repr(C)]
#[derive(Clone, Copy, Debug, PartialEq, Eq, Default)]
pub struct FragmentNumberSet {
    pub base: FragmentNumber,
    pub count: u32,
    pub words: [u32; 8],
}

/// A reader's proxy; its rooms are lent beside it.
#[repr(C)]
#[derive(Clone, Copy, Debug, PartialEq, Eq, Default)]
pub struct ReaderProxy {
    pub all_acked_before: SequenceNumber,
    pub unsent_cap: usize,
    pub unsent_count: usize,
    pub gap_prefix_end: SequenceNumber,
    pub gap_count: usize,
    pub frag_count: usize,
}

/// What a writer is.
#[repr(C)]
#[derive(Clone, Copy, Debug, PartialEq, Eq, Default)]
pub struct Kind {
    pub reliable: bool,
    /// A built-in writer never waits for room.
    pub builtin: bool,
    /// Nothing is kept for readers that come later.
    pub volatile: bool,
}

/// What a writer may hold. A window, backlog or retain of 0 counts as 1.
#[repr(C)]
#[derive(Clone, Copy, Debug, PartialEq, Eq, Default)]
pub struct Limits {
    /// Unacknowledged samples, up to 2^31-1.
    pub window: u64,
    /// Unsent samples, up to 2^31-1.
    pub backlog: u64,
    /// Samples kept where a write trims, up to `slots`.
    pub retain: u64,
    /// 1 to 256.
    pub slots: u64,
    /// 1 to 8,192.
    pub slot_bytes: u64,
}

/// The flow record.
#[repr(C)]
#[derive(Clone, Copy, Debug, PartialEq, Eq, Default)]
pub struct WriterSendBuffer {
    pub last: SequenceNumber,
    pub first: SequenceNumber,
    pub sent: SequenceNumber,
    pub acked: SequenceNumber,
    pub present: bool,
    pub kind: Kind,
    pub limits: Limits,
}

/// A slot of the reader list; a free one is all zeros.
#[repr(C)]
#[derive(Clone, Copy, Debug, PartialEq, Eq, Default)]
pub struct ReaderHead {
    pub id: u64,
    pub reliable: bool,
    pub acked: SequenceNumber,
}

#[repr(C)]
#[derive(Clone, Copy, Debug, PartialEq, Eq, Default)]
pub struct AckedFrontier {
    pub present: bool,
    pub acked: SequenceNumber,
}

#[repr(C)]
#[derive(Clone, Copy, Debug, PartialEq, Eq, Default)]
pub struct Match {
    pub id: u64,
    pub reliable: bool,
    pub cap: u64,
}

#[repr(C)]
#[derive(Clone, Copy, Debug, PartialEq, Eq, Default)]
pub struct Acked {
    pub id: u64,
    pub acked: SequenceNumber,
}

#[repr(C)]
#[derive(Clone, Copy, Debug, PartialEq, Eq, Default)]
pub struct Told {
    pub answer: Answer,
    pub yes: bool,
}

#[repr(C)]
#[derive(Clone, Copy, Debug, PartialEq, Eq, Default)]
pub struct Numbered {
    pub answer: Answer,
    pub number: SequenceNumber,
}

#[repr(C)]
#[derive(Clone, Copy, Debug, PartialEq, Eq, Default)]
pub struct NextNumber {
    pub answer: Answer,
    pub number: SequenceNumber,
    pub cursor: Cursor,
}

#[repr(C)]
#[derive(Clone, Copy, Debug, PartialEq, Eq, Default)]
pub struct NextFragment {
    pub answer: Answer,
    pub number: FragmentNumber,
    pub cursor: FragmentCursor,
}

#[repr(C)]
#[derive(Clone, Copy, Debug, PartialEq, Eq, Default)]
pub struct Changed {
    pub answer: Answer,
    pub proxy: ReaderProxy,
}

#[repr(C)]
#[derive(Clone, Copy, Debug, PartialEq, Eq, Default)]
pub struct Taken {
    pub answer: Answer,
    pub count: usize,
    pub proxy: ReaderProxy,
}

#[repr(C)]
#[derive(Clone, Copy, Debug, PartialEq, Eq, Default)]
pub struct AckNacked {
    pub answer: Answer,
    pub left_out: usize,
    pub proxy: ReaderProxy,
}

#[repr(C)]
#[derive(Clone, Copy, Debug, PartialEq, Eq, Default)]
pub struct NextFragRequested {
    pub answer: Answer,
    pub sample: SequenceNumber,
    pub fragment: FragmentNumber,
    pub cursor: FragmentCursor,
}

#[repr(C)]
#[derive(Clone, Copy, Debug, PartialEq, Eq, Default)]
pub struct Listed {
    pub answer: Answer,
    pub count: usize,
}

#[repr(C)]
#[derive(Clone, Copy, Debug, PartialEq, Eq, Default)]
pub struct WrittenNumbers {
    pub answer: Answer,
    pub set: SequenceNumberSet,
}

#[repr(C)]
#[derive(Clone, Copy, Debug, PartialEq, Eq, Default)]
pub struct WrittenFragments {
    pub answer: Answer,
    pub set: FragmentNumberSet,
}

#[repr(C)]
#[derive(Clone, Copy, Debug, PartialEq, Eq, Default)]
pub struct Moved {
    pub answer: Answer,
    pub flow: WriterSendBuffer,
}

#[repr(C)]
#[derive(Clone, Copy, Debug, PartialEq, Eq, Default)]
pub struct Located {
    pub answer: Answer,
    pub start: usize,
    pub length: usize,
}

#[repr(C)]
#[derive(Clone, Copy, Debug, PartialEq, Eq, Default)]
pub struct Found {
    pub answer: Answer,
    pub place: usize,
    pub head: ReaderHead,
}

#[repr(C)]
#[derive(Clone, Copy, Debug, PartialEq, Eq, Default)]
pub struct Front {
    pub answer: Answer,
    pub frontier: AckedFrontier,
}

#[repr(C)]
#[derive(Clone, Copy, Debug, PartialEq, Eq, Default)]
pub struct Sent {
    pub answer: Answer,
    pub number: SequenceNumber,
    pub data: bool,
    pub proxy: ReaderProxy,
}

#[repr(C)]
#[derive(Clone, Copy, Debug, PartialEq, Eq, Default)]
pub struct AckTold {
    pub told: Told,
    pub left_out: usize,
    pub proxy: ReaderProxy,
}

#[repr(C)]
#[derive(Clone, Copy, Debug, PartialEq, Eq, Default)]
pub struct SentMany {
    pub answer: Answer,
    pub count: usize,
    pub proxy: ReaderProxy,
}
