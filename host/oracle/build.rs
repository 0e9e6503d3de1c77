//! Refuses to build if one of the crate's two files differs by a byte from the
//! published one, and sets the unsent cap where the builder fixes it.

#[path = "build/sha256.rs"]
mod sha256;

const FILES: [(&str, &str); 2] = [
    (
        "src/rtps/rtps_reader_proxy.rs",
        "8b030361a8c1a121079b4d316e1159c2ec0a973f95d023e093cfb7fc9a87a964",
    ),
    (
        "src/rtps/writer_send_buffer.rs",
        "422900bff1890ea306d6a6ebb920f949daa31ab765189f7a720d202e757f0f05",
    ),
];

fn main() {
    // A wrong hash function would make the check worthless: try it first.
    assert_eq!(
        sha256::hex(b"abc"),
        "ba7816bf8f01cfea414140de5dae2223b00361a396177a9cb410ff61f20015ad"
    );
    for (file, sum) in FILES {
        println!("cargo:rerun-if-changed={}", file);
        let bytes = std::fs::read(file).unwrap_or_else(|e| panic!("{}: {}", file, e));
        assert_eq!(sha256::hex(&bytes), sum, "{} is not the crate's own", file);
    }
    println!("cargo:rerun-if-changed=build");
    fixed_cap();
}

/// `ORACLE_UNSENT_CAP=n` makes the cap the plain constant n, as in the crate;
/// otherwise each oracle reader is given its own cap. The choice is a line of
/// code, since the compilers to be served disagree on how to declare a cfg.
fn fixed_cap() {
    println!("cargo:rerun-if-env-changed=ORACLE_UNSENT_CAP");
    let text = std::env::var("ORACLE_UNSENT_CAP").unwrap_or_default();
    let code = match text.as_str() {
        "" => "pub use self::per_reader::*;".to_string(),
        number => {
            let cap: usize = number.parse().expect("ORACLE_UNSENT_CAP is a number");
            assert!(cap >= 1, "ORACLE_UNSENT_CAP is at least 1");
            format!(
                "pub const MAX_UNSENT_CHANGES_PER_READER: usize = {};\npub use self::fixed::*;",
                cap
            )
        }
    };
    let out = std::env::var("OUT_DIR").expect("set by cargo");
    let file = std::path::Path::new(&out).join("unsent_cap.rs");
    std::fs::write(file, code).expect("the cap's choice is written");
}
