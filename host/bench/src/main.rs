//! The same operations, on the same inputs, in the proved library and in the
//! crate. Prints for each: name, subject, calls, nanoseconds. `host/speed` runs
//! it, once on the machine for the times and once under callgrind for the
//! executed instructions.
//!
//! bench ROUNDS

mod lists;
mod meter;
mod readers;
mod round;
mod writers;
mod writes;

use meter::Meter;

fn main() {
    let rounds = std::env::args().nth(1).and_then(|text| text.parse().ok());
    let mut meter = Meter::new(rounds.unwrap_or(1));
    meter.empty_loop();
    readers::acknowledgements(&mut meter);
    readers::one_by_one(&mut meter);
    readers::one_by_one_in_two_calls(&mut meter);
    readers::batches(&mut meter);
    readers::fragments(&mut meter);
    writers::admission_and_fetch(&mut meter);
    lists::list_calls(&mut meter);
    writes::told_to_all(&mut meter);
    round::clean_round(&mut meter);
    eprintln!("({})", meter.sink());
}
