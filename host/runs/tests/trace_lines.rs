//! The generated traces: the same for the same seed, one answer a line, and
//! every answer that a trace can give among them.

use std::collections::BTreeMap;

use runs::trace_lines::TraceLines;

fn whole(seed: u64, count: u64) -> Vec<u8> {
    let mut bytes = Vec::new();
    TraceLines::whole(seed, count, |line| bytes.extend_from_slice(line));
    bytes
}

fn answers(input: &[u8]) -> Vec<u8> {
    let mut output = Vec::new();
    model::trace::run(input, &mut output).unwrap();
    let text = String::from_utf8(output).unwrap();
    let answer = |line: &str| {
        let field = line.split(' ').nth(1).unwrap();
        field.trim_start_matches("answer=").parse().unwrap()
    };
    text.lines().map(answer).collect()
}

#[test]
fn same_seed_same_trace() {
    assert_eq!(whole(3, 300), whole(3, 300));
    assert_ne!(whole(3, 300), whole(4, 300));
}

#[test]
fn every_answer_is_met() {
    let mut met = BTreeMap::new();
    for seed in 0..500 {
        let answers = answers(&whole(seed, 300));
        // A last line that is empty and has no newline isn't a line.
        assert!(answers.len() == 300 || answers.len() == 299);
        for answer in answers {
            *met.entry(answer).or_insert(0) += 1;
        }
    }
    println!("{:?}", met);
    for answer in [0, 2, 3, 4, 6, 7, 8, 10, 11, 12, 13, 15] {
        assert!(met.get(&answer).copied() > Some(50), "answer {}", answer);
    }
}
