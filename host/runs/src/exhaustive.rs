//! Every sequence of calls up to a length over a small alphabet, beside the
//! crate. A sequence ends early where a call leaves the compared range.

use model::{Kind, Limits};

use crate::{
    beside::{ReaderPair, WriterPair},
    calls::{ReaderCall, WriterCall},
    sight::Probe,
    subject::Subjects,
};

const PROBE: Probe = Probe {
    number: 2,
    fragment: 2,
};

/// All sequences of this length over so many letters; every shorter one is the
/// beginning of one of them. Returns how many calls were compared.
fn all_sequences(
    letters: usize,
    length: u32,
    mut run: impl FnMut(&mut dyn Iterator<Item = usize>) -> Result<u64, String>,
) -> Result<u64, String> {
    let mut compared = 0;
    for code in 0..letters.pow(length) {
        let mut digits = (0..length).map(|place| code / letters.pow(place) % letters);
        compared += run(&mut digits)?;
    }
    Ok(compared)
}

pub fn readers<S: Subjects>(
    subjects: &S,
    cap: usize,
    alphabet: &[ReaderCall],
    length: u32,
) -> Result<u64, String> {
    all_sequences(alphabet.len(), length, |digits| {
        let mut pair = ReaderPair::new(subjects, cap);
        let mut taken = Vec::new();
        for digit in digits {
            taken.push(&alphabet[digit]);
            let step = pair.step(&alphabet[digit], PROBE);
            if !step.map_err(|e| format!("{:?}: {}", taken, e))? {
                return Ok(taken.len() as u64 - 1);
            }
        }
        Ok(taken.len() as u64)
    })
}

pub fn writers<S: Subjects>(
    subjects: &S,
    kind: Kind,
    limits: Limits,
    alphabet: &[WriterCall],
    length: u32,
) -> Result<u64, String> {
    all_sequences(alphabet.len(), length, |digits| {
        let mut pair = WriterPair::new(subjects, kind, limits);
        let mut taken = Vec::new();
        for digit in digits {
            taken.push(&alphabet[digit]);
            let step = pair.step(&alphabet[digit], PROBE);
            if !step.map_err(|e| format!("{:?} {:?}: {}", kind, taken, e))? {
                return Ok(taken.len() as u64 - 1);
            }
        }
        Ok(taken.len() as u64)
    })
}
