//! Every entry point of the library against the model: on proxies, rooms, lengths
//! and numbers that may hold anything. Compared are the whole answer and the
//! whole later content of everything lent, refusals included.
//!
//! The model knows coherent records only; here stands what document 01 and
//! docs/DECISIONS.md say about the others: they get 1 and stay as they are.

mod by_id;
mod list;
mod many;
mod reader;
mod sets;
mod side_by_side;
mod writer;

use std::collections::BTreeMap;

use model::{Answer, Refusal};
use sintemuno::ffi;

use crate::{
    prng::Prng,
    steps::{Sound, Steps},
};

/// How often each entry gave each answer.
pub type Tally = BTreeMap<&'static str, BTreeMap<u32, u64>>;

/// Calls on one drawn record.
const CALLS_PER_WORLD: u64 = 8;

/// How many entries the library has.
const ENTRIES: u64 = 43;

pub fn run(seed: u64, calls: u64) -> Result<Tally, String> {
    worlds(seed, calls, |prng, tally| match prng.below(ENTRIES) {
        // So many of the entries each.
        0..=14 => reader::world(prng, tally),
        15..=20 => sets::world(prng, tally),
        21..=31 => writer::world(prng, tally),
        32..=36 => list::world(prng, tally),
        _ => step_world(&Sound, prng, tally),
    })
}

/// The steps alone, which may be faulty ones.
pub fn run_steps(steps: &impl Steps, seed: u64, calls: u64) -> Result<Tally, String> {
    worlds(seed, calls, |prng, tally| step_world(steps, prng, tally))
}

fn step_world(steps: &impl Steps, prng: &mut Prng, tally: &mut Tally) -> Result<(), String> {
    match prng.below(6) {
        0..=3 => by_id::world(steps, prng, tally),
        4 => side_by_side::world(steps, prng, tally),
        _ => many::world(steps, prng, tally),
    }
}

fn worlds(
    seed: u64,
    calls: u64,
    draw: impl Fn(&mut Prng, &mut Tally) -> Result<(), String>,
) -> Result<Tally, String> {
    let mut tally = Tally::new();
    for world in 0..(calls + CALLS_PER_WORLD - 1) / CALLS_PER_WORLD {
        let mut prng = Prng::of_world(seed, world);
        let result = draw(&mut prng, &mut tally);
        result.map_err(|e| format!("world {} of seed {}: {}", world, seed, e))?;
    }
    Ok(tally)
}

/// All answers of all entries.
pub fn answers(tally: &Tally) -> BTreeMap<u32, u64> {
    let mut all = BTreeMap::new();
    for (answer, times) in tally.values().flatten() {
        *all.entry(*answer).or_default() += times;
    }
    all
}

fn count(tally: &mut Tally, entry: &'static str, answer: ffi::Answer) {
    let answers = tally.entry(entry).or_default();
    *answers.entry(answer.number).or_default() += 1;
}

fn number(refusal: Refusal) -> ffi::Answer {
    let number = u32::from(refusal.number());
    ffi::Answer { number, place: 0 }
}

const INCOHERENT: ffi::Answer = ffi::Answer { number: 1, place: 0 };

/// The answer and its value: zeros where it is a refusal.
fn parts<T: Default>(answer: Answer<T>) -> (ffi::Answer, T) {
    match answer {
        Ok(value) => (ffi::Answer::default(), value),
        Err(refusal) => (number(refusal), T::default()),
    }
}

/// Any word: the ends of every range, small ones, and all others.
fn word(prng: &mut Prng) -> u64 {
    match prng.below(4) {
        0 => prng.pick(&[
            0,
            1,
            255,
            256,
            257,
            1024,
            1025,
            1 << 31,
            1 << 32,
            (1 << 63) - 2,
            (1 << 63) - 1,
            1 << 63,
            u64::MAX - 1,
            u64::MAX,
        ]),
        1 => prng.next(),
        _ => prng.below(20),
    }
}

/// A room of another length, another word in it, or two words exchanged.
fn damage_room<T: Copy>(prng: &mut Prng, room: &mut Vec<T>, any: impl Fn(&mut Prng) -> T) {
    let place = prng.below(room.len().max(1) as u64) as usize;
    match prng.below(8) {
        0 => drop(room.pop()),
        1 => room.push(any(prng)),
        2 if prng.one_in(4) => room.clear(),
        2 => room.truncate(place),
        3 if room.len() > 1 => room.swap(place, 0),
        4 if room.len() > 1 => room.swap(place, place.max(1) - 1),
        _ => {
            // Mostly where something is.
            let place = if prng.coin() { place } else { place % 4 };
            if let Some(word) = room.get_mut(place) {
                *word = any(prng);
            }
        }
    }
}
