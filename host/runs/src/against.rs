//! A subject against the model: any calls, from any coherent record, refusals
//! and untouched state included.

use std::collections::BTreeMap;

use crate::{
    beside::same,
    draw_any::{self, Near},
    draw_list,
    model_subject::Model,
    prng::Prng,
    subject::{ListSubject, ReaderSubject, Subjects, WriterSubject},
};

const CALLS_PER_WORLD: u64 = 20;

/// How often each answer was given.
pub type Answers = BTreeMap<u8, u64>;

pub fn run<S: Subjects>(subjects: &S, seed: u64, calls: u64) -> Result<Answers, String> {
    let mut answers = Answers::new();
    let mut world = 0;
    while world * CALLS_PER_WORLD < calls {
        let mut prng = Prng::of_world(seed, world);
        let result = match world % 5 {
            0 | 1 => reader_world(subjects, &mut prng, &mut answers),
            2 | 3 => writer_world(subjects, &mut prng, &mut answers),
            _ => list_world(subjects, &mut prng, &mut answers),
        };
        result.map_err(|e| format!("world {} of seed {}: {}", world, seed, e))?;
        world += 1;
    }
    Ok(answers)
}

fn reader_world<S: Subjects>(
    subjects: &S,
    prng: &mut Prng,
    answers: &mut Answers,
) -> Result<(), String> {
    let near = Near::new(prng);
    let start = draw_any::reader(prng, near);
    let (mut subject, mut judge) = (subjects.reader(&start), Model.reader(&start));
    for _ in 0..CALLS_PER_WORLD {
        let call = draw_any::reader_call(prng, near);
        let reply = subject.call(&call);
        *answers.entry(reply.answer).or_default() += 1;
        same(&call, reply, judge.call(&call))?;
        same(&call, subject.record(), judge.record())?;
        let (number, fragment) = (near.number(prng), draw_any::fragment(prng));
        same(
            &(&call, number, fragment),
            questions(&subject, number, fragment),
            questions(&judge, number, fragment),
        )?;
    }
    Ok(())
}

type Told = (Option<i64>, Option<i64>, Option<(i64, u32)>, bool);

fn questions(subject: &impl ReaderSubject, number: i64, fragment: u32) -> Told {
    (
        subject.next_unsent(number),
        subject.next_pending_gap(number),
        subject.next_fragment(fragment),
        subject.any_requested(),
    )
}

fn writer_world<S: Subjects>(
    subjects: &S,
    prng: &mut Prng,
    answers: &mut Answers,
) -> Result<(), String> {
    let near = Near::new(prng);
    let start = draw_any::send_buffer(prng, near);
    let (mut subject, mut judge) = (subjects.writer(&start), Model.writer(&start));
    for _ in 0..CALLS_PER_WORLD {
        let call = draw_any::writer_call(prng, near);
        let reply = subject.call(&call);
        *answers.entry(reply.answer).or_default() += 1;
        same(&call, reply, judge.call(&call))?;
        same(&call, subject.record(), judge.record())?;
        let number = near.number(prng);
        same(&(&call, number), subject.fetch(number), judge.fetch(number))?;
        let (told, judged) = (subject.acked_through(number), judge.acked_through(number));
        same(&(&call, number), told, judged)?;
    }
    Ok(())
}

/// Calls on a list, and as many creations.
fn list_world<S: Subjects>(
    subjects: &S,
    prng: &mut Prng,
    answers: &mut Answers,
) -> Result<(), String> {
    let near = Near::new(prng);
    let start = draw_list::list(prng, near);
    let (mut subject, mut judge) = (subjects.list(&start), Model.list(&start));
    for _ in 0..CALLS_PER_WORLD / 2 {
        let call = draw_list::call(prng, near);
        let reply = subject.call(&call);
        *answers.entry(reply.answer).or_default() += 1;
        same(&call, reply, judge.call(&call))?;
        same(&call, subject.record(), judge.record())?;
    }
    for _ in 0..CALLS_PER_WORLD / 4 {
        let cap = draw_list::cap(prng);
        same(&cap, subjects.new_reader(cap), Model.new_reader(cap))?;
        let (kind, limits) = (draw_list::kind(prng), draw_list::limits(prng));
        let made = subjects.new_writer(kind, limits);
        let answer = made.as_ref().map_or_else(|number| *number, |_| 0);
        *answers.entry(answer).or_default() += 1;
        same(&limits, made, Model.new_writer(kind, limits))?;
    }
    Ok(())
}
