//! Random lines for the trace program: mostly right ones, so that the writer
//! gets somewhere, and damaged ones among them.

use model::trace::Trace;

use crate::prng::Prng;

/// Follows its own lines by the model, so that numbers are near the edges.
pub struct TraceLines {
    prng: Prng,
    trace: Trace,
    /// Some traces ask for fragments at every second line, to fill the slots.
    extra_frags: bool,
}

impl TraceLines {
    pub fn new(seed: u64) -> Self {
        let mut prng = Prng::of_world(seed, 0);
        TraceLines {
            extra_frags: prng.one_in(6),
            prng,
            trace: Trace::default(),
        }
    }

    /// The next line with its newline.
    pub fn next_line(&mut self) -> Vec<u8> {
        let odd = self.prng.one_in(40);
        let line = if self.trace.is_started() != odd {
            self.step()
        } else {
            self.new_line()
        };
        let mut bytes = line.into_bytes();
        if self.prng.one_in(8) {
            self.damage(&mut bytes);
        }
        self.trace.answer(&bytes);
        bytes.push(b'\n');
        bytes
    }

    /// A whole trace; of every second seed the last line has no newline.
    pub fn whole(seed: u64, count: u64, mut write: impl FnMut(&[u8])) {
        let mut lines = TraceLines::new(seed);
        for place in 1..=count {
            let mut line = lines.next_line();
            if place == count && seed % 2 == 1 {
                line.pop();
            }
            write(&line);
        }
    }

    fn new_line(&mut self) -> String {
        let p = &mut self.prng;
        let slots = if p.one_in(8) {
            p.pick(&[0, 1, 256, 257])
        } else {
            1 + p.below(9)
        };
        let retain = match p.below(8) {
            0 => slots + 1,
            _ => p.below(slots + 1),
        };
        let (window, backlog) = (limit(p), limit(p));
        format!(
            "op=new window={} backlog={} retain={} slots={}",
            window, backlog, retain, slots
        )
    }

    fn step(&mut self) -> String {
        if self.extra_frags && self.prng.coin() {
            return self.frag();
        }
        match self.prng.below(20) {
            0..=1 => format!("op=match reader={}", self.reader()),
            2..=7 => {
                let p = &mut self.prng;
                let len = if p.one_in(8) {
                    p.pick(&[16, 17, u64::MAX >> 1])
                } else {
                    p.below(17)
                };
                format!("op=write len={}", len)
            }
            8..=12 => self.ack(),
            13..=15 => format!("op=sent reader={} seq={}", self.reader(), self.number()),
            16..=18 => self.frag(),
            _ => format!("op=evict before={}", self.number()),
        }
    }

    fn reader(&mut self) -> u64 {
        let p = &mut self.prng;
        match p.below(12) {
            0 => p.pick(&[0, 3, u64::MAX >> 1]),
            _ => 1 + p.below(2),
        }
    }

    /// Near one of the state figures.
    fn number(&mut self) -> u64 {
        let p = &mut self.prng;
        let figure = p.pick(&self.trace.figures());
        match p.below(24) {
            0 => p.pick(&[0, 1, 1 << 32, (u64::MAX >> 1) - 1, u64::MAX >> 1]),
            1..=4 => (figure + p.between(-3, 2)).max(0) as u64,
            _ => (figure + p.between(-1, 1)).max(0) as u64,
        }
    }

    fn ack(&mut self) -> String {
        let base = self.number();
        let low = if self.prng.one_in(20) {
            base.saturating_sub(1)
        } else {
            base
        };
        let set = self.set(low);
        format!("op=ack reader={} base={} set={}", self.reader(), base, set)
    }

    fn frag(&mut self) -> String {
        let p = &mut self.prng;
        let low = match p.below(10) {
            0 => p.pick(&[0, 4090, 4096, 4097, 1 << 32, u64::MAX >> 1]),
            _ => 1 + p.below(40),
        };
        let set = self.set(low);
        let sample = match self.prng.below(3) {
            0 => self.number(),
            _ => 1 + self.prng.below(30),
        };
        format!(
            "op=frag reader={} seq={} set={}",
            self.reader(),
            sample,
            set
        )
    }

    fn set(&mut self, low: u64) -> String {
        let p = &mut self.prng;
        let count = p.pick(&[0, 0, 1, 1, 2, 3, 8, 40]);
        let step = p.pick(&[1, 1, 2, 9, 130]);
        let mut number = low;
        let mut texts = Vec::new();
        for _ in 0..count {
            if number > u64::MAX >> 1 {
                break;
            }
            texts.push(if p.one_in(30) {
                format!("0{}", number)
            } else {
                number.to_string()
            });
            number = number.saturating_add(1 + p.below(step));
        }
        texts.join(",")
    }

    fn damage(&mut self, line: &mut Vec<u8>) {
        let p = &mut self.prng;
        let at = p.below(line.len() as u64) as usize;
        match p.below(9) {
            0 => line.truncate(at),
            1 => {
                line.remove(at);
            }
            2 => line.insert(at, p.pick(b" =,09o\r\t-+\0")),
            3 => line[at] = p.pick(b" =,09x\xff\0"),
            4 => line.push(p.pick(b" ,0\r")),
            5 => swap_fields(line),
            6 => widen(line, p),
            7 => line.clear(),
            _ => lengthen(line, p),
        }
    }
}

fn limit(prng: &mut Prng) -> u64 {
    match prng.below(16) {
        0 => prng.pick(&[1 << 31, u64::MAX >> 1]),
        1..=7 => prng.pick(&[20, 1000, (1 << 31) - 1]),
        _ => prng.below(9),
    }
}

/// The right fields in another order.
fn swap_fields(line: &mut Vec<u8>) {
    let mut fields: Vec<&[u8]> = line.split(|b| *b == b' ').collect();
    fields.reverse();
    *line = fields.join(&b' ');
}

/// Zeros before a number: up to 19 digits it is still right.
fn widen(line: &mut Vec<u8>, prng: &mut Prng) {
    let at = line.iter().rposition(|b| *b == b'=').map_or(0, |at| at + 1);
    let zeros = prng.pick(&[1, 17, 18, 19]);
    line.splice(at..at, vec![b'0'; zeros]);
}

/// To exactly 512 bytes, one more, or many more; bytes, not sense.
fn lengthen(line: &mut Vec<u8>, prng: &mut Prng) {
    let length = prng.pick(&[511, 512, 513, 5000]);
    let filler = prng.pick(b"0 ,x");
    line.resize(length.max(line.len()), filler);
}
