//! The trace program's example, and lines at the edge of being understood.

use model::trace::run;

fn answers(input: &[u8]) -> String {
    let mut output = Vec::new();
    run(input, &mut output).unwrap();
    String::from_utf8(output).unwrap()
}

/// Only the answer numbers.
fn numbers(input: &[u8]) -> Vec<u8> {
    let text = answers(input);
    let number = |line: &str| {
        let field = line.split(' ').nth(1).unwrap();
        field.strip_prefix("answer=").unwrap().parse().unwrap()
    };
    text.lines().map(number).collect()
}

#[test]
fn the_five_lines() {
    let input = b"op=new window=1 backlog=8 retain=4 slots=4
op=match reader=1
op=write len=3
op=write len=3
op=ack reader=1 base=2 set=
";
    let output = "1 answer=0 last=0 first=1 acked=1
2 answer=0 last=0 first=1 acked=1
3 answer=0 last=1 first=1 acked=1
4 answer=6 last=1 first=1 acked=1
5 answer=0 last=1 first=1 acked=2
";
    assert_eq!(answers(input), output);
    // The last line counts without its newline too.
    assert_eq!(answers(&input[..input.len() - 1]), output);
}

#[test]
fn nothing_in_nothing_out() {
    assert_eq!(answers(b""), "");
    assert_eq!(answers(b"\n"), "1 answer=15 last=0 first=0 acked=0\n");
}

const NEW: &[u8] = b"op=new window=9 backlog=9 retain=4 slots=4\n";

fn after_new(rest: &[u8]) -> Vec<u8> {
    let input = [NEW, b"op=match reader=1\nop=write len=0\n", rest].concat();
    numbers(&input)[3..].to_vec()
}

#[test]
fn damaged_lines() {
    let lines: [&[u8]; 12] = [
        b"op=write len=3 \n",
        b" op=write len=3\n",
        b"op=write  len=3\n",
        b"op=write len=\n",
        b"op=write len=+3\n",
        b"op=write len=00000000000000000003\n",
        b"op=write len=9223372036854775808\n",
        b"op=write len=3\r\n",
        b"op=ack base=1 reader=1 set=\n",
        b"op=ack reader=1 base=1 set=2,2\n",
        b"op=ack reader=1 base=2 set=1\n",
        b"op=write len=\xff\n",
    ];
    for line in lines {
        assert_eq!(after_new(line), [15], "{:?}", String::from_utf8_lossy(line));
    }
}

#[test]
fn lines_of_512_bytes() {
    // Sets of many numbers fill a line; the last number may be padded.
    let mut line = b"op=ack reader=1 base=1 set=".to_vec();
    let mut n = 1;
    while line.len() < 480 {
        line.extend_from_slice(format!("{:04},", n).as_bytes());
        n += 1;
    }
    let padding = 512 - line.len() - 2;
    let mut full = line.clone();
    full.extend_from_slice(&b"0".repeat(padding.min(17)));
    full.extend_from_slice(format!("{:02}", n).as_bytes());
    assert!(full.len() <= 512);
    while full.len() < 512 {
        full.insert(27, b'0');
    }
    assert_eq!(after_new(&full), [0]);
    full.insert(27, b'0');
    assert_eq!(after_new(&full), [15]);
    full.extend_from_slice(b"\nop=write len=1\n");
    assert_eq!(after_new(&full), [15, 0]);
}

/// Lines after an accepted `op=new`, a match of reader 1 and one write.
#[test]
fn each_number_that_needs_few_lines() {
    let cases: [(&str, &[u8]); 14] = [
        ("op=write len=17", &[4]),
        ("op=sent reader=1 seq=2|op=sent reader=7 seq=2", &[2, 2]),
        ("op=sent reader=7 seq=1|op=sent reader=1 seq=0", &[11, 0]),
        ("op=ack reader=1 base=3 set=", &[12]),
        (
            "op=ack reader=1 base=2 set=3|op=ack reader=1 base=0 set=0,1",
            &[0, 0],
        ),
        ("op=ack reader=2 base=1 set=257", &[3]),
        ("op=ack reader=2 base=1 set=256", &[11]),
        ("op=match reader=0|op=match reader=1", &[11, 11]),
        (
            "op=match reader=2|op=match reader=3|op=match reader=2",
            &[0, 8, 11],
        ),
        (
            "op=evict before=2|op=evict before=3|op=evict before=0",
            &[0, 2, 0],
        ),
        (
            "op=frag reader=1 seq=0 set=|op=frag reader=1 seq=1 set=0",
            &[2, 2],
        ),
        (
            "op=frag reader=1 seq=9 set=4096|op=frag reader=1 seq=9 set=4097",
            &[0, 2],
        ),
        (
            "op=frag reader=1 seq=9 set=1,257|op=frag reader=3 seq=9 set=1",
            &[3, 11],
        ),
        ("op=new window=9 backlog=9 retain=4 slots=4", &[15]),
    ];
    for (lines, answers) in cases {
        let lines = lines.replace('|', "\n");
        assert_eq!(after_new(lines.as_bytes()), answers, "{}", lines);
    }
}

#[test]
fn each_number_that_needs_more() {
    let refused = b"op=new window=2147483648 backlog=1 retain=1 slots=1\n";
    let again = [&refused[..], b"op=write len=1\n", NEW].concat();
    assert_eq!(numbers(&again), [13, 15, 0]);
    let full = b"op=write len=1\n".repeat(4);
    assert_eq!(after_new(&full), [0, 0, 0, 7]);
    let frags: Vec<u8> = (1..=17)
        .flat_map(|n| format!("op=frag reader=1 seq={} set=1\n", n).into_bytes())
        .collect();
    assert_eq!(after_new(&frags)[15..], [0, 10]);
}
