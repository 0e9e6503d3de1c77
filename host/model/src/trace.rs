//! The trace program: one answer line for every line read.

pub mod line;

use std::io::{self, BufRead, Write};

use crate::{
    flow::{Kind, Limits},
    numbers::{answer_number, Answer, Refusal, MOST_BITS, MOST_FRAGMENTS},
    reader::Reader,
    set::{FragmentSet, NumberSet},
    store::SendBuffer,
    writer::Writer,
};
use line::{understood, Command};

const SLOT_BYTES: u64 = 16;
const READERS: usize = 2;

#[derive(Default)]
pub struct Trace {
    /// From the accepted `op=new` on.
    writer: Option<Writer>,
    lines: u64,
}

impl Trace {
    /// The answer line, without its newline.
    pub fn answer(&mut self, line: &[u8]) -> String {
        self.lines += 1;
        let answer = answer_number(&self.follow(line));
        let [last, first, acked] = self.figures();
        format!(
            "{} answer={} last={} first={} acked={}",
            self.lines, answer, last, first, acked
        )
    }

    /// Last, first and acked; zeros until `op=new` is accepted.
    pub fn figures(&self) -> [i64; 3] {
        let flow = self.writer.as_ref().map(|w| &w.buffer.flow);
        flow.map_or([0; 3], |f| [f.last, f.first, f.acked])
    }

    pub fn is_started(&self) -> bool {
        self.writer.is_some()
    }

    fn follow(&mut self, line: &[u8]) -> Answer<()> {
        let command = understood(line).ok_or(Refusal::NotUnderstood)?;
        match (&mut self.writer, command) {
            (
                None,
                Command::New {
                    window,
                    backlog,
                    retain,
                    slots,
                },
            ) => {
                self.writer = Some(writer(window, backlog, retain, slots)?);
                Ok(())
            }
            (None, _) | (Some(_), Command::New { .. }) => Err(Refusal::NotUnderstood),
            (Some(writer), command) => step(writer, command),
        }
    }
}

/// A reliable volatile writer with 16-byte slots.
fn writer(window: u64, backlog: u64, retain: u64, slots: u64) -> Answer<Writer> {
    let kind = Kind {
        reliable: true,
        builtin: false,
        volatile: true,
    };
    let limits = Limits {
        window,
        backlog,
        retain,
        slots,
        slot_bytes: SLOT_BYTES,
    };
    Writer::new(SendBuffer::new(kind, limits)?, READERS)
}

fn step(writer: &mut Writer, command: Command) -> Answer<()> {
    match command {
        Command::New { .. } => Err(Refusal::NotUnderstood),
        Command::Match { reader } => writer
            .match_reader(reader, true, Reader::DEFAULT_CAP)
            .map(drop),
        Command::Write { len } => {
            // One byte too many stands for any number of bytes too many.
            let bytes = vec![0; len.min(SLOT_BYTES + 1) as usize];
            writer.write(false, &bytes).map(drop)
        }
        Command::Ack { reader, base, set } => {
            let members: Vec<i64> = set.iter().map(|n| *n as i64).collect();
            let set = NumberSet::of(base as i64, &members).ok_or(Refusal::SetTooLong)?;
            writer.take_ack(reader, &set).map(drop)
        }
        Command::Sent { reader, seq } => writer.mark_sent(reader, seq as i64).map(drop),
        Command::Frag { reader, seq, set } => {
            writer.request_fragments(reader, seq as i64, &fragment_set(&set)?)
        }
        Command::Evict { before } => writer.buffer.evict_before(before as i64),
    }
}

/// The first number, or 1, is the base.
fn fragment_set(numbers: &[u64]) -> Answer<FragmentSet> {
    let base = numbers.first().copied().unwrap_or(1);
    let end = numbers.last().copied().unwrap_or(1);
    if end - base >= u64::from(MOST_BITS) {
        return Err(Refusal::SetTooLong);
    }
    if end > u64::from(MOST_FRAGMENTS) {
        // Out of range wherever it lies; it need not fit a fragment number.
        let first_beyond = MOST_FRAGMENTS + 1;
        return FragmentSet::of(first_beyond, &[first_beyond]).ok_or(Refusal::SetTooLong);
    }
    let members: Vec<u32> = numbers.iter().map(|n| *n as u32).collect();
    FragmentSet::of(base as u32, &members).ok_or(Refusal::SetTooLong)
}

/// A newline ends a line; a last line without one counts.
pub fn run(mut input: impl BufRead, mut output: impl Write) -> io::Result<()> {
    let mut trace = Trace::default();
    let mut line = Vec::new();
    while input.read_until(b'\n', &mut line)? > 0 {
        if line.last() == Some(&b'\n') {
            line.pop();
        }
        writeln!(output, "{}", trace.answer(&line))?;
        line.clear();
    }
    output.flush()
}
