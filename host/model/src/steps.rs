//! The writer's steps, each on the parts that it needs: a readers' event, and
//! what document 01 says the writer does then. A step that is refused at any
//! point changes nothing.

use crate::{
    flow::Flow,
    list::ReaderList,
    numbers::{first_of, is_sample, Answer, Refusal, MOST_FRAGMENTS},
    reader::{above_next, Reader},
    set::{FragmentSet, NumberSet},
    store::SendBuffer,
};

/// What a send step puts on the wire.
#[derive(Clone, PartialEq, Eq, Debug)]
pub enum Sent {
    Data(i64, Vec<u8>),
    Gap(i64),
}

/// The list as it was changed, and its frontier stored. The answer is "wake",
/// here and below.
fn store(list: &mut ReaderList, flow: &mut Flow, changed: ReaderList) -> Answer<bool> {
    let wake = flow.set_acked_frontier(changed.frontier()?)?;
    *list = changed;
    Ok(wake)
}

pub fn match_reader(
    list: &mut ReaderList,
    flow: &mut Flow,
    id: u64,
    reliable: bool,
    cap: usize,
) -> Answer<bool> {
    Reader::new(cap)?;
    first_of(&[(!flow.is_coherent(), Refusal::Incoherent)])?;
    let mut changed = list.clone();
    changed.match_reader(id, reliable)?;
    store(list, flow, changed)
}

pub fn depart(list: &mut ReaderList, flow: &mut Flow, id: u64) -> Answer<bool> {
    first_of(&[(!flow.is_coherent(), Refusal::Incoherent)])?;
    let mut changed = list.clone();
    changed.depart(id)?;
    store(list, flow, changed)
}

/// How many numbers were left out at the cap, and "wake".
pub fn take_ack(
    list: &mut ReaderList,
    flow: &mut Flow,
    record: &mut Reader,
    id: u64,
    set: &NumberSet,
) -> Answer<(u64, bool)> {
    let head = list.heads.iter().find(|h| h.id == id);
    // A negative acked in the list counts as 0.
    let agrees = head.map_or(true, |h| h.acked.max(0) == record.acked);
    let lent = list.is_coherent() && flow.is_coherent() && record.is_coherent();
    let ahead = above_next(set.base.max(1), flow.last);
    first_of(&[
        (!lent || !agrees, Refusal::Incoherent),
        (set.is_too_long(), Refusal::SetTooLong),
        (set.base < 0, Refusal::OutOfRange),
        (id == 0 || head.is_none(), Refusal::BadReader),
        (ahead, Refusal::BaseAboveLast),
    ])?;
    let (mut taken, mut changed) = (record.clone(), list.clone());
    let left_out = taken.handle_ack_nack(set, flow.last)?;
    changed.set_acked(id, taken.acked)?;
    let wake = store(list, flow, changed)?;
    *record = taken;
    Ok((left_out, wake))
}

pub fn request_fragments(
    list: &ReaderList,
    record: &mut Reader,
    id: u64,
    sample: i64,
    set: &FragmentSet,
) -> Answer<()> {
    let mut members = set.members().into_iter();
    let beyond = members.any(|f| f > u64::from(MOST_FRAGMENTS));
    let outside = !is_sample(sample) || set.base == 0 || beyond;
    let coherent = list.is_coherent() && record.is_coherent();
    first_of(&[
        (!coherent, Refusal::Incoherent),
        (set.is_too_long(), Refusal::SetTooLong),
        (outside, Refusal::OutOfRange),
        (list.find(id).is_err(), Refusal::BadReader),
    ])?;
    record.mark_frags_requested(sample, set)
}

/// Admits a sample and tells every reader its number.
pub fn write(
    buffer: &mut SendBuffer,
    records: &mut [&mut Reader],
    opted_in: bool,
    bytes: &[u8],
) -> Answer<i64> {
    let coherent = records.iter().all(|record| record.is_coherent());
    first_of(&[(!coherent, Refusal::Incoherent)])?;
    let number = buffer.admit(opted_in, bytes)?;
    for record in records {
        record.notify_new_cache_change(number)?;
    }
    Ok(number)
}

/// Sends the first unsent numbers, at most so many: each as data if it is
/// retained, else as a gap.
pub fn send_many(buffer: &SendBuffer, record: &mut Reader, most: usize) -> Answer<Vec<Sent>> {
    first_of(&[
        (
            !buffer.is_coherent() || !record.is_coherent(),
            Refusal::Incoherent,
        ),
        (record.unsent.is_empty(), Refusal::NothingThere),
    ])?;
    let mut sent = Vec::new();
    while sent.len() < most && !record.unsent.is_empty() {
        let number = record.next_unsent(1)?;
        record.mark_change_sent(number)?;
        sent.push(match buffer.get(number) {
            Ok(bytes) => Sent::Data(number, bytes.to_vec()),
            Err(_) => Sent::Gap(number),
        });
    }
    Ok(sent)
}
