//! Finds the proved library, `crates/sintemuno/out/libsintemuno.a` of this
//! repository, and links it. Where it isn't there, or a crate has changed since,
//! `rt lib` in crates/sintemuno makes it: half a minute if the crates are proved
//! already. SINTEMUNO_STATICLIB names another folder that has the archive;
//! nothing is made then.

use std::{
    env, fs, io,
    path::{Path, PathBuf},
    process::{exit, Command},
    time::SystemTime,
};

const ARCHIVE: &str = "libsintemuno.a";

fn main() {
    println!("cargo:rerun-if-env-changed=SINTEMUNO_STATICLIB");
    let machine = env::var("CARGO_CFG_TARGET_ARCH").unwrap_or_default();
    if machine != "x86_64" {
        give_up(&format!(
            "the library is for x86-64, and this build is for {}",
            machine
        ));
    }
    let here = PathBuf::from(env::var_os("CARGO_MANIFEST_DIR").expect("set by cargo"));
    let root = here.ancestors().nth(2).expect("host/sintemuno lies in it");
    let folder = match env::var_os("SINTEMUNO_STATICLIB") {
        Some(folder) => PathBuf::from(folder),
        None => made(root),
    };
    let archive = folder.join(ARCHIVE);
    if !archive.is_file() {
        give_up(&format!("there is no {}", archive.display()));
    }
    println!("cargo:rerun-if-changed={}", archive.display());
    println!("cargo:rustc-link-search=native={}", folder.display());
    println!("cargo:rustc-link-lib=static=sintemuno");
}

/// The folder of the archive as this repository makes it.
fn made(root: &Path) -> PathBuf {
    let home = root.join("crates/sintemuno");
    let folder = home.join("out");
    let archive = folder.join(ARCHIVE);
    let sources = match sources(root) {
        Ok(sources) => sources,
        Err(why) => give_up(&format!("the crates can't be read: {}", why)),
    };
    for source in &sources {
        println!("cargo:rerun-if-changed={}", source.display());
    }
    if is_newer(&archive, &sources).unwrap_or(false) {
        return folder;
    }
    let made = Command::new("rt").arg("lib").current_dir(home).output();
    match made {
        Ok(output) if output.status.success() => {}
        Ok(output) => {
            eprint!("{}", String::from_utf8_lossy(&output.stdout));
            eprint!("{}", String::from_utf8_lossy(&output.stderr));
            give_up("rt lib in crates/sintemuno didn't make the library");
        }
        Err(_) => give_up(
            "no rt on PATH, and the library isn't made yet or a crate has changed since. The Rattle kit \
             has rt, in its folder bin; where it is, this build makes the library itself (rt lib in \
             crates/sintemuno). Or let SINTEMUNO_STATICLIB name a folder that has libsintemuno.a",
        ),
    }
    folder
}

/// What the archive is made of: the list of the crates, and what each has but
/// what rt makes in its folder `out`.
fn sources(root: &Path) -> io::Result<Vec<PathBuf>> {
    let mut sources = vec![root.join("crates.txt")];
    for entry in fs::read_dir(root.join("crates"))? {
        let home = entry?.path();
        for part in ["src", "specs", "proofs"] {
            let part = home.join(part);
            if part.is_dir() {
                sources.push(part);
            }
        }
    }
    Ok(sources)
}

/// Whether the archive is there and no source was changed after it.
fn is_newer(archive: &Path, sources: &[PathBuf]) -> io::Result<bool> {
    let made = fs::metadata(archive)?.modified()?;
    for source in sources {
        if changed(source)? > made {
            return Ok(false);
        }
    }
    Ok(true)
}

/// When a file, or the last of a folder's, was changed.
fn changed(source: &Path) -> io::Result<SystemTime> {
    let about = fs::metadata(source)?;
    let mut last = about.modified()?;
    if about.is_dir() {
        for entry in fs::read_dir(source)? {
            last = last.max(changed(&entry?.path())?);
        }
    }
    Ok(last)
}

fn give_up(why: &str) -> ! {
    eprintln!("sintemuno: {}", why);
    exit(1);
}
