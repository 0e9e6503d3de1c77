//! library [CALLS] [SEED] [ANY_CALLS]: the proved library beside the crate, so
//! many calls inside the compared range; then every entry point against the
//! model, so many calls on anything at all. Exits with 1 at the first
//! difference.

use runs::{beside, library_subject::Library, raw};

fn argument(place: usize, default: u64) -> u64 {
    match std::env::args().nth(place) {
        None => default,
        Some(text) => text.parse().unwrap_or_else(|_| {
            eprintln!("usage: library [CALLS] [SEED] [ANY_CALLS]");
            std::process::exit(2);
        }),
    }
}

fn main() {
    let (calls, seed) = (argument(1, 200_000), argument(2, 1));
    let any_calls = argument(3, 1_000_000);
    let outcome = beside::run(&Library, seed, calls).and_then(|tally| {
        println!("the library beside the crate, seed {}: {:?}", seed, tally);
        raw::run(seed, any_calls)
    });
    match outcome {
        Ok(tally) if tally.is_empty() => {}
        Ok(tally) => {
            println!("every entry against the model, how often each answer:");
            for (entry, answers) in &tally {
                println!("  {}: {:?}", entry, answers);
            }
            println!("  all: {:?}", raw::answers(&tally));
        }
        Err(difference) => {
            println!("DIFFERENCE {}", difference);
            std::process::exit(1);
        }
    }
}
