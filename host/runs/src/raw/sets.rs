//! The entries on sets.

use model::{numbers::MOST_BITS, FragmentSet, NumberSet, Refusal};
use sintemuno::ffi::{
    self, Answer, FragmentCursor, FragmentNumber, FragmentNumberSet, Listed, NextFragment,
    SequenceNumber, SequenceNumberSet, WrittenFragments, WrittenNumbers,
};

use super::{
    count, number,
    reader::{cursor, next_number},
    word, Tally, CALLS_PER_WORLD,
};
use crate::{
    beside::same,
    draw_any::{self, Near},
    forms,
    prng::Prng,
};

pub fn world(prng: &mut Prng, tally: &mut Tally) -> Result<(), String> {
    for _ in 0..CALLS_PER_WORLD / 2 {
        let near = Near::new(prng);
        sequence_numbers(prng, near, tally)?;
        fragment_numbers(prng, tally)?;
    }
    Ok(())
}

/// The first of two rows that holds, 3 before 2.
fn refused(bits: bool, range: bool) -> Answer {
    match (bits, range) {
        (true, _) => number(Refusal::SetTooLong),
        (_, true) => number(Refusal::OutOfRange),
        _ => Answer::default(),
    }
}

/// Numbers for a set: most within reach of the base, in any order.
fn numbers(prng: &mut Prng, base: u64) -> Vec<u64> {
    let reach = prng.pick(&[3, 40, 255, 256, 257]);
    let mut numbers: Vec<u64> = (0..prng.pick(&[0, 1, 2, 5, 300]))
        .map(|_| base.wrapping_add(prng.below(reach)))
        .collect();
    if prng.one_in(4) {
        numbers.push(word(prng));
    }
    if prng.one_in(6) {
        numbers.push(base.wrapping_sub(1));
    }
    numbers
}

/// Base, count and words of the set of the numbers given; a negative base is
/// refused, and its 256 bits count from it.
fn written(base: i64, numbers: &[u64]) -> (Answer, u32, [u32; 8]) {
    let wide = |n: &u64| i128::from(*n) - i128::from(base);
    let above = numbers.iter().any(|n| wide(n) >= i128::from(MOST_BITS));
    let below = numbers.iter().any(|n| wide(n) < 0);
    let answer = refused(above, base < 0 || below);
    if answer.number != 0 {
        return (answer, 0, [0; 8]);
    }
    let places: Vec<i64> = numbers.iter().map(|n| wide(n) as i64).collect();
    let set = NumberSet::of(0, &places).expect("within 256 bits");
    (answer, set.count, set.words)
}

/// The members that a room holds, and what stays in it.
fn filled(answer: Answer, members: &[u64], out: &[u64]) -> (Listed, Vec<u64>) {
    let mut after = out.to_vec();
    if answer.number != 0 {
        return (Listed { answer, count: 0 }, after);
    }
    for (word, member) in after.iter_mut().zip(members) {
        *word = *member;
    }
    let count = members.len();
    (Listed { answer, count }, after)
}

fn sequence_numbers(prng: &mut Prng, near: Near, tally: &mut Tally) -> Result<(), String> {
    let call = draw_any::number_set(prng, near);
    let set = forms::number_set(&call);
    let members: Vec<u64> = call.members().iter().map(|n| *n as u64).collect();
    let answer = refused(call.is_too_long(), call.base < 0);

    let mut out: Vec<u64> = vec![prng.next(); prng.pick(&[0, 1, 5, 255, 256, 300])];
    let (expected, after) = filled(answer, &members, &out);
    let got = ffi::set_list_members(set, &mut out);
    count(tally, "set_list_members", got.answer);
    same(&("set_list_members", set), (got, out), (expected, after))?;

    let at = cursor(prng, near);
    let mut from = members
        .iter()
        .filter(|n| (at.from..=i64::MAX as u64).contains(n));
    let (answer, next) = match (answer.number, from.next()) {
        (0, None) => (number(Refusal::NothingThere), 0),
        (0, Some(next)) => (answer, *next as i64),
        _ => (answer, 0),
    };
    let got = ffi::set_next_member(set, at);
    count(tally, "set_next_member", got.answer);
    same(
        &("set_next_member", set, at),
        got,
        next_number(answer, next),
    )?;

    let base = near.number(prng);
    let numbers = numbers(prng, base.max(0) as u64);
    let (answer, bits, words) = written(base, &numbers);
    let made = WrittenNumbers {
        answer,
        set: SequenceNumberSet {
            base: SequenceNumber(if answer.number == 0 { base } else { 0 }),
            count: bits,
            words,
        },
    };
    let got = ffi::set_of_numbers(SequenceNumber(base), &numbers);
    count(tally, "set_of_numbers", got.answer);
    same(&("set_of_numbers", base, &numbers), got, made)
}

fn fragment_numbers(prng: &mut Prng, tally: &mut Tally) -> Result<(), String> {
    let call: FragmentSet = draw_any::fragment_set(prng);
    let set = forms::fragment_set(&call);
    let members = call.members();
    let answer = refused(call.is_too_long(), false);

    let mut out: Vec<u64> = vec![prng.next(); prng.pick(&[0, 1, 5, 255, 256, 300])];
    let (expected, after) = filled(answer, &members, &out);
    let got = ffi::fragment_set_list_members(set, &mut out);
    count(tally, "fragment_set_list_members", got.answer);
    let name = "fragment_set_list_members";
    same(&(name, set), (got, out), (expected, after))?;

    let from = word(prng);
    let mut in_range = members
        .iter()
        .filter(|n| (from..=u64::from(u32::MAX)).contains(n));
    let next = in_range.next().map_or(0, |n| *n);
    let expected = match (answer.number, next) {
        (0, 0) if !members.contains(&0) || from > 0 => NextFragment {
            answer: number(Refusal::NothingThere),
            ..NextFragment::default()
        },
        (0, next) => NextFragment {
            answer,
            number: FragmentNumber(next as u32),
            cursor: FragmentCursor { from: next + 1 },
        },
        _ => NextFragment {
            answer,
            ..NextFragment::default()
        },
    };
    let got = ffi::fragment_set_next_member(set, FragmentCursor { from });
    count(tally, "fragment_set_next_member", got.answer);
    same(&("fragment_set_next_member", set, from), got, expected)?;

    let base = if prng.one_in(8) {
        u32::MAX
    } else {
        draw_any::fragment(prng)
    };
    let numbers = numbers(prng, base.into());
    let (answer, bits, words) = written(base.into(), &numbers);
    let made = WrittenFragments {
        answer,
        set: FragmentNumberSet {
            base: FragmentNumber(if answer.number == 0 { base } else { 0 }),
            count: bits,
            words,
        },
    };
    let got = ffi::fragment_set_of_numbers(FragmentNumber(base), &numbers);
    count(tally, "fragment_set_of_numbers", got.answer);
    same(&("fragment_set_of_numbers", base, &numbers), got, made)
}
