//! beside [CALLS] [SEED]: random runs of the model beside the crate, then
//! against itself on any calls (which only shows that the draws reach every
//! answer). Exits with 1 at the first difference.

use runs::{against, beside, model_subject::Model};

fn argument(place: usize, default: u64) -> u64 {
    match std::env::args().nth(place) {
        None => default,
        Some(text) => text.parse().unwrap_or_else(|_| {
            eprintln!("usage: beside [CALLS] [SEED]");
            std::process::exit(2);
        }),
    }
}

fn main() {
    let (calls, seed) = (argument(1, 200_000), argument(2, 1));
    let outcome = beside::run(&Model, seed, calls).and_then(|tally| {
        println!("beside the crate, seed {}: {:?}", seed, tally);
        against::run(&Model, seed, calls.min(200_000))
    });
    match outcome {
        Ok(answers) => println!("any calls, how often each answer: {:?}", answers),
        Err(difference) => {
            println!("DIFFERENCE {}", difference);
            std::process::exit(1);
        }
    }
}
