//! The declarations in `src/ffi` are those of `include/sintemuno.h`: the same
//! entries with the same parameters, and the same structs field by field.

use std::collections::BTreeMap;

const HEADER: &str = include_str!("../../../include/sintemuno.h");
const ENTRIES: &str = include_str!("../src/ffi/entries.rs");
const TYPES: &str = include_str!("../src/ffi/types.rs");

/// C's names and Rust's.
const NAMES: [(&str, &str); 39] = [
    ("int64_t", "i64"),
    ("uint64_t", "u64"),
    ("uint32_t", "u32"),
    ("uint8_t", "u8"),
    ("size_t", "usize"),
    ("bool", "bool"),
    ("sintemuno_sequence_number", "SequenceNumber"),
    ("sintemuno_fragment_number", "FragmentNumber"),
    ("sintemuno_answer", "Answer"),
    ("sintemuno_cursor", "Cursor"),
    ("sintemuno_fragment_cursor", "FragmentCursor"),
    ("sintemuno_set", "SequenceNumberSet"),
    ("sintemuno_fragment_set", "FragmentNumberSet"),
    ("sintemuno_reader", "ReaderProxy"),
    ("sintemuno_kind", "Kind"),
    ("sintemuno_limits", "Limits"),
    ("sintemuno_writer", "WriterSendBuffer"),
    ("sintemuno_reader_head", "ReaderHead"),
    ("sintemuno_frontier", "AckedFrontier"),
    ("sintemuno_match", "Match"),
    ("sintemuno_acked", "Acked"),
    ("sintemuno_told", "Told"),
    ("sintemuno_numbered", "Numbered"),
    ("sintemuno_next_number", "NextNumber"),
    ("sintemuno_next_fragment", "NextFragment"),
    ("sintemuno_changed", "Changed"),
    ("sintemuno_taken", "Taken"),
    ("sintemuno_ack_nacked", "AckNacked"),
    ("sintemuno_next_frag_requested", "NextFragRequested"),
    ("sintemuno_listed", "Listed"),
    ("sintemuno_written_numbers", "WrittenNumbers"),
    ("sintemuno_written_fragments", "WrittenFragments"),
    ("sintemuno_moved", "Moved"),
    ("sintemuno_located", "Located"),
    ("sintemuno_found", "Found"),
    ("sintemuno_front", "Front"),
    ("sintemuno_sent", "Sent"),
    ("sintemuno_sent_many", "SentMany"),
    ("sintemuno_ack_told", "AckTold"),
];

fn rust_name(c: &str) -> &str {
    NAMES.iter().find(|(name, _)| *name == c).expect(c).1
}

/// The text without comments and directives, on one line.
fn plain(text: &str) -> String {
    let mut text = text.to_string();
    while let Some(start) = text.find("/*") {
        let end = start + text[start..].find("*/").expect("a comment's end") + 2;
        text.replace_range(start..end, " ");
    }
    let lines = text.lines().map(|l| l.split("//").next().expect("a part"));
    let kept: Vec<&str> = lines.filter(|l| !l.starts_with('#')).collect();
    kept.join(" ")
        .split_whitespace()
        .collect::<Vec<_>>()
        .join(" ")
}

/// `const uint64_t *unsent` as `*const u64`, without the name.
fn c_type(declared: &str) -> String {
    let (kind, name) = declared
        .rsplit_once(|c| c == ' ' || c == '*')
        .expect(declared);
    let base = kind
        .trim_start_matches("const ")
        .trim_end_matches('*')
        .trim();
    let base = rust_name(base);
    if let Some((_, length)) = name.split_once('[') {
        return format!("[{}; {}]", base, length.trim_end_matches(']'));
    }
    match (declared.contains('*'), declared.starts_with("const ")) {
        (false, _) => base.to_string(),
        (true, true) => format!("*const {}", base),
        (true, false) => format!("*mut {}", base),
    }
}

fn list(parts: &str, separator: char, each: impl Fn(&str) -> String) -> String {
    let parts = parts.split(separator).map(str::trim);
    let parts: Vec<String> = parts.filter(|p| !p.is_empty()).map(each).collect();
    parts.join(", ")
}

/// Each entry and struct of the header, as Rust has it.
fn of_header() -> BTreeMap<String, String> {
    let mut found = BTreeMap::new();
    let text = plain(HEADER);
    for part in text.split("typedef struct {").skip(1) {
        let (fields, rest) = part.split_once('}').expect("a struct's end");
        let name = rest.split(';').next().expect("a name").trim();
        found.insert(rust_name(name).to_string(), list(fields, ';', c_type));
    }
    for part in text
        .split(';')
        .filter(|p| p.contains("(sintemuno_") || p.contains("(size_t"))
    {
        let (head, parameters) = part.split_once('(').expect("parameters");
        let (result, name) = match head.trim().rsplit_once(' ') {
            Some((result, name)) if name.starts_with("sintemuno_") => (result, name),
            _ => continue,
        };
        let result = rust_name(result.rsplit(' ').next().expect("a result"));
        let parameters = list(parameters.trim_end_matches(')'), ',', c_type);
        found.insert(name.to_string(), format!("{} -> {}", parameters, result));
    }
    // A list is lent as const to two calls: their first parameter isn't any of
    // the above.
    for part in text.split(';') {
        let (head, parameters) = match part.split_once('(') {
            Some(parts) => parts,
            None => continue,
        };
        let mut words = head.split_whitespace().rev();
        let name = words.next().unwrap_or("");
        if !name.starts_with("sintemuno_") {
            continue;
        }
        let result = rust_name(words.next().expect("a result"));
        let parameters = list(parameters.trim_end_matches(')'), ',', c_type);
        found.insert(name.to_string(), format!("{} -> {}", parameters, result));
    }
    found
}

fn type_of(declared: &str) -> String {
    let declared = declared.trim_start_matches("pub ");
    declared.rsplit(": ").next().expect("a type").to_string()
}

/// Each entry and struct of `src/ffi`.
fn of_rust() -> BTreeMap<String, String> {
    let mut found = BTreeMap::new();
    for part in plain(TYPES).split("pub struct ").skip(1) {
        let open = part.find(|c| c == '{' || c == '(').expect("fields");
        let close = part.find(|c| c == '}' || c == ')').expect("an end");
        let fields = &part[open + 1..close];
        let name = part[..open].trim().to_string();
        // The one array has no comma in it.
        found.insert(name, list(fields, ',', type_of));
    }
    for part in plain(ENTRIES).split("pub fn ").skip(1) {
        let (name, rest) = part.split_once('(').expect("parameters");
        let (parameters, rest) = rest.split_once(')').expect("their end");
        let result = rest.trim_start_matches(" -> ").split(';').next();
        let result = result.expect("a result").to_string();
        let parameters = list(parameters, ',', type_of);
        found.insert(name.to_string(), format!("{} -> {}", parameters, result));
    }
    found
}

#[test]
fn the_declarations_are_the_headers() {
    let (header, rust) = (of_header(), of_rust());
    assert_eq!(rust.keys().filter(|n| n.starts_with("sinte")).count(), 43);
    for (name, declared) in &header {
        assert_eq!(Some(declared), rust.get(name), "{}", name);
    }
    let only_here: Vec<&String> = rust.keys().filter(|n| !header.contains_key(*n)).collect();
    assert!(only_here.is_empty(), "{:?}", only_here);
}
