//! A plan server in a bakery and three packing lines, over a network that loses
//! things: a lost allergen stop and its repair, a request for nothing, and a
//! write that has to wait.
//!
//!     host/cargo run --release -p sintemuno --example packing_line

use std::{collections::BTreeMap, error::Error, io::Write};

use sintemuno::{
    FragmentNumber, FragmentNumberSet, Kind, Limits, Refusal, Sent, SequenceNumber,
    SequenceNumberSet, Writer,
};

/// A line's own account: what it received, and the highest number it knows of.
struct Line {
    id: u64,
    received: BTreeMap<i64, String>,
    known: i64,
}

impl Line {
    fn new(id: u64) -> Self {
        Line {
            id,
            received: BTreeMap::new(),
            known: 0,
        }
    }

    fn receive(&mut self, number: SequenceNumber, notice: &[u8]) {
        let notice = String::from_utf8_lossy(notice).into_owned();
        self.received.insert(number.0, notice);
        self.known = self.known.max(number.0);
    }

    /// All below the base is here; of what is known above it, what isn't.
    fn ack_nack(&self) -> Result<SequenceNumberSet, Refusal> {
        let lacks = |n: &i64| !self.received.contains_key(n);
        let base = (1..).find(lacks).unwrap_or(1);
        let asked: Vec<u64> = (base..=self.known.min(base + 255))
            .filter(lacks)
            .map(|n| n as u64)
            .collect();
        SequenceNumberSet::new(SequenceNumber(base), &asked)
    }
}

/// Sends a line all that is unsent to it; the network loses what `lost` says.
fn send_all(
    plan: &mut Writer,
    line: &mut Line,
    lost: impl Fn(i64) -> bool,
    out: &mut dyn Write,
) -> Result<(), Box<dyn Error>> {
    let mut highest = SequenceNumber(0);
    loop {
        match plan.send_first(line.id) {
            Ok(Sent::Data(number, notice)) => {
                highest = highest.max(number);
                if lost(number.0) {
                    writeln!(out, "  line {}: notice {} is lost", line.id, number)?;
                } else {
                    line.receive(number, notice);
                    writeln!(out, "  line {}: notice {} arrives", line.id, number)?;
                }
            }
            Ok(Sent::Gap(number)) => writeln!(out, "  line {}: {} is gone", line.id, number)?,
            Err(Refusal::NothingThere) => break,
            Err(refusal) => return Err(refusal.into()),
        }
    }
    plan.set_sent_frontier(highest)?;
    Ok(())
}

/// A heartbeat tells the line how far the plan goes, and it answers.
fn round(plan: &mut Writer, line: &mut Line, out: &mut dyn Write) -> Result<(), Box<dyn Error>> {
    let last = plan.buffer().last_change_sequence_number();
    line.known = line.known.max(last.0);
    let answer = line.ack_nack()?;
    let asked: Vec<i64> = answer.iter().map(i64::from).collect();
    let taken = plan.handle_ack_nack(line.id, &answer)?;
    write!(out, "  line {}: has all below {}", line.id, answer.base)?;
    if !asked.is_empty() {
        write!(out, ", asks for {:?}", asked)?;
    }
    if taken.wake {
        write!(out, "; who waits for room is woken")?;
    }
    writeln!(out)?;
    Ok(())
}

/// The whole story, told to `out`.
pub fn tell(out: &mut dyn Write) -> Result<(), Box<dyn Error>> {
    let kind = Kind {
        reliable: true,
        builtin: false,
        volatile: true,
    };
    let limits = Limits {
        window: 3,
        backlog: 8,
        retain: 8,
        slots: 8,
        slot_bytes: 64,
    };
    let mut plan = Writer::new(kind, limits, 4, 64)?;
    let mut lines = [Line::new(1), Line::new(2), Line::new(3)];
    for line in &lines {
        plan.matched_reader_add(line.id, true)?;
    }

    writeln!(out, "three notices for three lines")?;
    for notice in ["rye, label 7", "oat rolls, label 12", "STOP: sesame next"] {
        let number = plan.write(false, notice.as_bytes())?;
        writeln!(out, "  notice {}: {}", number, notice)?;
    }
    let stop = plan.buffer().last_change_sequence_number();

    writeln!(out, "one more has to wait until the lines have some")?;
    let refused = plan.write(false, b"wheat, label 3").unwrap_err();
    writeln!(out, "  {}", refused)?;

    writeln!(out, "sent to all; the stop is lost on the way to line 2")?;
    for line in &mut lines {
        let unlucky = line.id == 2;
        send_all(&mut plan, line, |n| unlucky && n == stop.0, out)?;
    }

    writeln!(out, "the lines say what they have")?;
    for line in &mut lines {
        round(&mut plan, line, out)?;
    }
    let everywhere = plan.buffer().is_acked_through(stop);
    writeln!(out, "  the stop is on every line: {}", everywhere)?;

    writeln!(out, "repair")?;
    for line in &mut lines {
        send_all(&mut plan, line, |_| false, out)?;
    }
    round(&mut plan, &mut lines[1], out)?;
    let everywhere = plan.buffer().is_acked_through(stop);
    writeln!(out, "  the stop is on every line: {}", everywhere)?;

    requests_for_pieces(&mut plan, stop, out)
}

/// A line that asks for pieces of one notice, after asking for none of another.
fn requests_for_pieces(
    plan: &mut Writer,
    stop: SequenceNumber,
    out: &mut dyn Write,
) -> Result<(), Box<dyn Error>> {
    writeln!(
        out,
        "line 3 asks for no piece of notice 1, and for pieces 2 and 5 of the stop"
    )?;
    let none = FragmentNumberSet::new(FragmentNumber(1), &[])?;
    let two = FragmentNumberSet::new(FragmentNumber(2), &[2, 5])?;
    plan.mark_frags_requested(3, SequenceNumber(1), &none)?;
    plan.mark_frags_requested(3, stop, &two)?;
    loop {
        let next = plan.reader(3)?.frags_requested_iterator().next();
        let (number, piece) = match next {
            Some(next) => next,
            None => break,
        };
        writeln!(out, "  piece {} of notice {} is sent", piece, number)?;
        plan.mark_frag_sent(3, number, piece)?;
    }
    let left = plan.reader(3)?.repair_frags_requested();
    writeln!(out, "  pieces left to send: {}", left)?;
    Ok(())
}

#[allow(dead_code)]
fn main() -> Result<(), Box<dyn Error>> {
    tell(&mut std::io::stdout().lock())
}
