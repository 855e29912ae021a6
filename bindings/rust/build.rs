//! Says where the archive libvejupa.a is: in the folder that VEJUPA_LIB names (absolute, or seen from this crate's folder), else where
//! `tools/archive` writes it, in target/staticlib at the repository's root.
//!
//! An archive that is missing or out of date is a warning and no error, so that `cargo check` and `cargo doc` do without it. A program
//! cannot be linked without it.
use std::env;
use std::fs;
use std::path::{Path, PathBuf};
use std::time::SystemTime;

const COMMAND: &str = "run `tools/archive` at the repository's root";

fn main() {
    println!("cargo:rerun-if-env-changed=VEJUPA_LIB");
    let here = PathBuf::from(env::var_os("CARGO_MANIFEST_DIR").expect("cargo sets it"));
    let lib = env::var_os("VEJUPA_LIB").unwrap_or_else(|| "../../target/staticlib".into());
    let folder = here.join(lib);
    let archive = folder.join("libvejupa.a");
    println!("cargo:rerun-if-changed={}", archive.display());
    println!("cargo:rustc-link-search=native={}", folder.display());
    println!("cargo:rustc-link-lib=static=vejupa");

    let newest = sources(&here.join("../.."))
        .into_iter()
        .max_by_key(|file| changed(file));
    let archive_name = archive.display();
    let Some(made) = changed(&archive) else {
        return println!("cargo:warning={archive_name} is missing, nothing can be linked: {COMMAND}, or set VEJUPA_LIB to its folder");
    };
    let Some(newest) = newest.filter(|file| changed(file) > Some(made)) else {
        return;
    };
    let newest = newest.display();
    println!("cargo:warning={archive_name} is older than {newest}: {COMMAND}");
}

/// What the archive is made from, where it lies beside this crate: the sources of the crates that it rests on. cargo is told to look at them
/// again, by folder, so that a new file counts as well.
fn sources(root: &Path) -> Vec<PathBuf> {
    let list = root.join("crates.txt");
    let Ok(text) = fs::read_to_string(&list) else {
        return Vec::new();
    };
    println!("cargo:rerun-if-changed={}", list.display());
    let mut sources = Vec::new();
    for name in rests_on(&text) {
        let folder = root.join("crates").join(name).join("src");
        let Ok(files) = fs::read_dir(&folder) else {
            continue;
        };
        println!("cargo:rerun-if-changed={}", folder.display());
        let files = files.flatten().map(|entry| entry.path());
        sources.extend(files.filter(|file| file.extension().is_some_and(|name| name == "rt")));
    }
    sources
}

/// `vejupa_c`, which the archive is made of, and every crate that it rests on, by crates.txt: a line `NAME: NAME NAME ..` for each, of a static library `NAME staticlib: NAME NAME ..`.
fn rests_on(text: &str) -> Vec<&str> {
    let mut names = vec!["vejupa_c"];
    let mut at = 0;
    while let Some(name) = names.get(at).copied() {
        let line = text.lines().find_map(|line| {
            let rest = line.strip_prefix(name)?;
            rest.strip_prefix(" staticlib")
                .unwrap_or(rest)
                .strip_prefix(':')
        });
        for below in line.unwrap_or_default().split_whitespace() {
            if !names.contains(&below) {
                names.push(below);
            }
        }
        at += 1;
    }
    names
}

/// When a file was last changed; None where there is no such file.
fn changed(file: &Path) -> Option<SystemTime> {
    fs::metadata(file).ok()?.modified().ok()
}
