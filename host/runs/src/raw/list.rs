//! The entries on the reader list.

use model::{Answer, ReaderList, Refusal};
use sintemuno::ffi::{self, Acked, AckedFrontier, Found, Front, Match, ReaderHead, SequenceNumber};

use super::{count, damage_room, number, parts, word, Tally, CALLS_PER_WORLD};
use crate::{beside::same, calls::ListCall, draw_any::Near, draw_list, forms, prng::Prng};

pub fn world(prng: &mut Prng, tally: &mut Tally) -> Result<(), String> {
    let near = Near::new(prng);
    let mut sound = drawn(prng, near);
    for _ in 0..CALLS_PER_WORLD {
        let damaged = prng.one_in(3);
        let mut lent = sound.clone();
        if damaged {
            damage(prng, near, &mut lent);
        }
        step(prng, near, tally, &mut lent)?;
        if !damaged {
            sound = lent;
        }
    }
    Ok(())
}

/// Readers in any slots of a list of any length, with free ones between.
pub fn drawn(prng: &mut Prng, near: Near) -> Vec<ReaderHead> {
    let mut slots = forms::slots(&draw_list::list(prng, near));
    for place in 0..slots.len() {
        slots.swap(place, prng.below(64) as usize);
    }
    slots.truncate(prng.pick(&[1, 2, 3, 63, 64, 64]));
    slots
}

pub fn damage(prng: &mut Prng, near: Near, slots: &mut Vec<ReaderHead>) {
    let any = |prng: &mut Prng| ReaderHead {
        id: prng.below(4),
        reliable: prng.coin(),
        acked: SequenceNumber(near.number(prng).min(prng.pick(&[0, i64::MAX]))),
    };
    damage_room(prng, slots, any);
    let place = prng.below(slots.len().max(1) as u64) as usize;
    if let Some(head) = slots.get_mut(place) {
        match prng.below(4) {
            0 => head.id = word(prng),
            1 => head.reliable = !head.reliable,
            2 => head.acked = SequenceNumber(word(prng) as i64),
            _ => {}
        }
    }
}

/// The readers that are there, in the order of their slots. `None` if the list
/// isn't coherent: no slots or too many, two readers of one id, or a free slot
/// with something in it.
pub fn view(slots: &[ReaderHead]) -> Option<ReaderList> {
    let free = |h: &&ReaderHead| h.id == 0;
    let empty = |h: &ReaderHead| !h.reliable && h.acked.0 == 0;
    let there = slots.iter().filter(|h| h.id != 0);
    let list = ReaderList {
        room: slots.len(),
        heads: there.map(forms::head_view).collect(),
    };
    let fits = (1..=64).contains(&slots.len())
        && slots.iter().filter(free).all(empty)
        && list.is_coherent();
    if fits {
        Some(list)
    } else {
        None
    }
}

pub fn place_of(slots: &[ReaderHead], id: u64) -> Option<usize> {
    slots.iter().position(|h| h.id == id)
}

fn judged<T>(slots: &[ReaderHead], call: impl FnOnce(&mut ReaderList) -> Answer<T>) -> Answer<T> {
    let mut list = view(slots).ok_or(Refusal::Incoherent)?;
    call(&mut list)
}

fn step(
    prng: &mut Prng,
    near: Near,
    tally: &mut Tally,
    lent: &mut Vec<ReaderHead>,
) -> Result<(), String> {
    let call = draw_list::call(prng, near);
    let mut after = lent.clone();
    let (name, got, expected) = match &call {
        ListCall::Match { id, reliable } => {
            let cap = draw_list::cap(prng);
            let (id, reliable) = (*id, *reliable);
            let mut expected = judged(lent, |list| list.match_reader(id, reliable));
            if !(1..=1024).contains(&cap) {
                expected = Err(Refusal::LimitNotAllowed);
            }
            if expected.is_ok() {
                let free = place_of(lent, 0).expect("a free slot");
                after[free] = ReaderHead {
                    id,
                    reliable,
                    acked: SequenceNumber(0),
                };
            }
            let got = ffi::list_matched_reader_add(lent, Match { id, reliable, cap });
            ("list_matched_reader_add", got, expected)
        }
        ListCall::Depart { id } => {
            let expected = judged(lent, |list| list.depart(*id));
            if expected.is_ok() {
                after[place_of(lent, *id).expect("there")] = ReaderHead::default();
            }
            let got = ffi::list_matched_reader_remove(lent, *id);
            ("list_matched_reader_remove", got, expected)
        }
        ListCall::SetAcked { id, acked } => {
            let expected = judged(lent, |list| list.set_acked(*id, *acked));
            if expected.is_ok() {
                after[place_of(lent, *id).expect("there")].acked = SequenceNumber(*acked);
            }
            let (id, acked) = (*id, SequenceNumber(*acked));
            let got = ffi::list_set_acked(lent, Acked { id, acked });
            ("list_set_acked", got, expected)
        }
        ListCall::Find { id } => return finds(*id, tally, lent),
        ListCall::Frontier => return frontier(tally, lent),
    };
    count(tally, name, got);
    let (answer, ()) = parts(expected);
    same(&(name, &call), got, answer)?;
    same(&(name, &call), &*lent, &after)
}

fn finds(id: u64, tally: &mut Tally, lent: &[ReaderHead]) -> Result<(), String> {
    let expected = match judged(lent, |list| list.find(id)) {
        Ok(_) => {
            let place = place_of(lent, id).expect("there");
            Found {
                answer: ffi::Answer::default(),
                place,
                head: lent[place],
            }
        }
        Err(refusal) => Found {
            answer: number(refusal),
            ..Found::default()
        },
    };
    let got = ffi::list_matched_reader_lookup(lent, id);
    count(tally, "list_matched_reader_lookup", got.answer);
    same(&("list_matched_reader_lookup", id), got, expected)
}

fn frontier(tally: &mut Tally, lent: &[ReaderHead]) -> Result<(), String> {
    let (answer, frontier) = parts(judged(lent, |list| list.frontier()));
    let frontier = AckedFrontier {
        present: frontier.is_some(),
        acked: SequenceNumber(frontier.unwrap_or(0)),
    };
    let got = ffi::list_frontier(lent);
    count(tally, "list_frontier", got.answer);
    same(&"list_frontier", got, Front { answer, frontier })
}
