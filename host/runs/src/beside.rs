//! A subject beside the crate: the same call to both, every answer and the
//! whole state compared after it.

use std::fmt::Debug;

use model::{Kind, Limits, Reader, SendBuffer};

use crate::{
    calls::{ReaderCall, Reply, WriterCall},
    draw_reader::ReaderWorld,
    draw_writer::WriterWorld,
    oracle_subject::{OracleReader, OracleWriter},
    prng::Prng,
    range::{ReaderRange, WriterRange},
    sight::{Probe, ReaderSight, WriterSight},
    subject::{ReaderSubject, Subjects, WriterSubject},
};

/// Ok(true): compared and the same. Ok(false): outside the compared range and
/// not called.
pub type Step = Result<bool, String>;

pub fn same<T: PartialEq + Debug>(what: &dyn Debug, subject: T, judge: T) -> Result<(), String> {
    if subject == judge {
        Ok(())
    } else {
        Err(format!(
            "after {:?}\n  subject: {:?}\n  judge:   {:?}",
            what, subject, judge
        ))
    }
}

pub struct ReaderPair<R> {
    pub subject: R,
    pub oracle: OracleReader,
    range: ReaderRange,
}

impl<R: ReaderSubject> ReaderPair<R> {
    pub fn new(subjects: &impl Subjects<Reader = R>, cap: usize) -> Self {
        let start = Reader::new(cap).expect("an allowed cap");
        ReaderPair {
            subject: subjects.reader(&start),
            oracle: OracleReader(oracle::Reader::new(cap)),
            range: ReaderRange::new(cap),
        }
    }

    pub fn step(&mut self, call: &ReaderCall, probe: Probe) -> Step {
        if !self.range.allows(call, &self.oracle) {
            return Ok(false);
        }
        let reply = self.subject.call(call);
        self.oracle.call(call);
        self.range.took(call, &self.oracle);
        same(call, reply, expected_reply(call))?;
        let seen = ReaderSight::of(&self.subject, probe);
        same(call, seen, self.oracle.sight(probe))?;
        Ok(true)
    }
}

/// The crate's functions are silent. In range there is one refusal, 12, whose
/// state the crate shows; nothing is left out at the cap.
fn expected_reply(call: &ReaderCall) -> Reply {
    match call {
        ReaderCall::Ack { set, last } if set.base.max(1) > last + 1 => Reply::refused(12),
        _ => Reply::default(),
    }
}

pub struct WriterPair<W> {
    pub subject: W,
    pub oracle: OracleWriter,
    range: WriterRange,
}

impl<W: WriterSubject> WriterPair<W> {
    pub fn new(subjects: &impl Subjects<Writer = W>, kind: Kind, limits: Limits) -> Self {
        let start = SendBuffer::new(kind, limits).expect("allowed limits");
        WriterPair {
            subject: subjects.writer(&start),
            oracle: OracleWriter::new(kind, limits),
            range: WriterRange::new(kind, limits),
        }
    }

    pub fn step(&mut self, call: &WriterCall, probe: Probe) -> Step {
        if !self.range.allows(call, &self.oracle) {
            return Ok(false);
        }
        let reply = self.subject.call(call);
        let judged = self.oracle.call(call);
        self.range.took(call);
        same(call, reply, judged)?;
        let seen = WriterSight::of(&self.subject, probe);
        same(call, seen, self.oracle.sight(probe))?;
        Ok(true)
    }
}

/// How many calls were compared, by kind of call and by answer.
#[derive(Default, Debug)]
pub struct Tally {
    pub reader: u64,
    pub writer: u64,
    pub outside: u64,
    pub ignored_acks: u64,
    pub late_acks: u64,
    pub would_block: u64,
}

/// Calls between two fresh starts.
const CALLS_PER_WORLD: u64 = 150;

/// Random runs, readers and writers in turn, until `calls` were compared.
pub fn run<S: Subjects>(subjects: &S, seed: u64, calls: u64) -> Result<Tally, String> {
    let mut tally = Tally::default();
    let mut world = 0;
    while tally.reader + tally.writer < calls {
        let mut prng = Prng::of_world(seed, world);
        let name = format!("world {} of seed {}: ", world, seed);
        let result = if world % 2 == 0 {
            reader_world(subjects, &mut prng, &mut tally)
        } else {
            writer_world(subjects, &mut prng, &mut tally)
        };
        result.map_err(|difference| name + &difference)?;
        world += 1;
    }
    Ok(tally)
}

fn reader_world<S: Subjects>(
    subjects: &S,
    prng: &mut Prng,
    tally: &mut Tally,
) -> Result<(), String> {
    let mut world = ReaderWorld::new(prng);
    let mut pair = ReaderPair::new(subjects, world.cap);
    for _ in 0..CALLS_PER_WORLD {
        let acked = pair.oracle.0.acked_up_to_before();
        let call = world.draw(prng, acked);
        if !pair.step(&call, world.probe(prng))? {
            tally.outside += 1;
            continue;
        }
        tally.reader += 1;
        if let ReaderCall::Ack { set, .. } = &call {
            tally.ignored_acks += u64::from(expected_reply(&call).answer == 12);
            tally.late_acks += u64::from(set.base.max(1) < acked);
        }
    }
    Ok(())
}

fn writer_world<S: Subjects>(
    subjects: &S,
    prng: &mut Prng,
    tally: &mut Tally,
) -> Result<(), String> {
    let world = WriterWorld::new(prng);
    let mut pair = WriterPair::new(subjects, world.kind, world.limits);
    for _ in 0..CALLS_PER_WORLD {
        let last = pair.oracle.last();
        let call = world.draw(prng, last);
        if !pair.step(&call, world.probe(prng, last))? {
            tally.outside += 1;
            continue;
        }
        tally.writer += 1;
        let blocked = matches!(call, WriterCall::Admit { .. }) && pair.oracle.last() == last;
        tally.would_block += u64::from(blocked);
    }
    Ok(())
}
