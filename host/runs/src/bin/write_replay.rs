//! write_replay: the fixed list of the crate's answers, as `crates/oracle_replay`
//! has it for its input.

fn main() {
    print!("{}", runs::replay::list());
}
