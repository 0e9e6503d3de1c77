//! What one line says: for any bytes either one command or nothing.

pub const MOST_LINE_BYTES: usize = 512;

#[derive(Clone, PartialEq, Eq, Debug)]
pub enum Command {
    New {
        window: u64,
        backlog: u64,
        retain: u64,
        slots: u64,
    },
    Match {
        reader: u64,
    },
    Write {
        len: u64,
    },
    Ack {
        reader: u64,
        base: u64,
        set: Vec<u64>,
    },
    Sent {
        reader: u64,
        seq: u64,
    },
    Frag {
        reader: u64,
        seq: u64,
        set: Vec<u64>,
    },
    Evict {
        before: u64,
    },
}

/// 1 to 19 digits, up to 2^63-1.
fn number(text: &str) -> Option<u64> {
    let digits = !text.is_empty() && text.bytes().all(|b| b.is_ascii_digit());
    if !digits || text.len() > 19 {
        return None;
    }
    // 19 digits always fit 64 unsigned bits.
    let value: u64 = text.parse().ok()?;
    Some(value).filter(|v| *v <= i64::MAX as u64)
}

/// Nothing, or numbers with commas between them, each above the one before.
fn set(text: &str) -> Option<Vec<u64>> {
    if text.is_empty() {
        return Some(Vec::new());
    }
    let numbers: Option<Vec<u64>> = text.split(',').map(number).collect();
    numbers.filter(|n| n.windows(2).all(|w| w[0] < w[1]))
}

/// The values behind the keys, if these are exactly the line's fields in this
/// order, with one space between two fields.
fn values<'a>(line: &'a str, keys: &[&str]) -> Option<Vec<&'a str>> {
    let fields: Vec<&str> = line.split(' ').collect();
    if fields.len() != keys.len() {
        return None;
    }
    let value = |(field, key): (&&'a str, &&str)| field.strip_prefix(key)?.strip_prefix('=');
    fields.iter().zip(keys).map(value).collect()
}

pub fn understood(line: &[u8]) -> Option<Command> {
    if line.len() > MOST_LINE_BYTES {
        return None;
    }
    let line = std::str::from_utf8(line).ok()?;
    let (op, _) = line.split_once(' ')?;
    match op {
        "op=new" => new(line),
        "op=match" => {
            let v = values(line, &["op", "reader"])?;
            let reader = number(v[1])?;
            Some(Command::Match { reader })
        }
        "op=write" => {
            let v = values(line, &["op", "len"])?;
            let len = number(v[1])?;
            Some(Command::Write { len })
        }
        "op=ack" => ack(line),
        "op=sent" => {
            let v = values(line, &["op", "reader", "seq"])?;
            let (reader, seq) = (number(v[1])?, number(v[2])?);
            Some(Command::Sent { reader, seq })
        }
        "op=frag" => frag(line),
        "op=evict" => {
            let v = values(line, &["op", "before"])?;
            let before = number(v[1])?;
            Some(Command::Evict { before })
        }
        _ => None,
    }
}

fn new(line: &str) -> Option<Command> {
    let v = values(line, &["op", "window", "backlog", "retain", "slots"])?;
    Some(Command::New {
        window: number(v[1])?,
        backlog: number(v[2])?,
        retain: number(v[3])?,
        slots: number(v[4])?,
    })
}

/// A number below the base makes the line a bad one.
fn ack(line: &str) -> Option<Command> {
    let v = values(line, &["op", "reader", "base", "set"])?;
    let (reader, base, set) = (number(v[1])?, number(v[2])?, set(v[3])?);
    if set.iter().any(|n| *n < base) {
        return None;
    }
    Some(Command::Ack { reader, base, set })
}

fn frag(line: &str) -> Option<Command> {
    let v = values(line, &["op", "reader", "seq", "set"])?;
    Some(Command::Frag {
        reader: number(v[1])?,
        seq: number(v[2])?,
        set: set(v[3])?,
    })
}
