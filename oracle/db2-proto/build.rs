//! Lays out the crate's source tree: the published files unchanged, and the shims where the published lib.rs looks for its
//! other modules. Only fdoca.rs takes another place, fdoca/published.rs, where the folder module of shims/fdoca includes it:
//! a module's private functions can be reached from nowhere but inside it.
use std::path::{Path, PathBuf};
use std::{env, fs};

const PUBLISHED: [(&str, &str); 6] = [
    ("lib.rs", "lib.rs"),
    ("types.rs", "types.rs"),
    ("codepage.rs", "codepage.rs"),
    ("fdoca.rs", "fdoca/published.rs"),
    ("replies/sqlcard.rs", "replies/sqlcard.rs"),
    ("replies/sqldard.rs", "replies/sqldard.rs"),
];

const SHIMS: [&str; 7] = [
    "codepoints.rs",
    "commands.rs",
    "ddm.rs",
    "dss.rs",
    "fdoca/mod.rs",
    "replies/mod.rs",
    "secmec9.rs",
];

fn copy(from: &Path, to: &Path) {
    println!("cargo:rerun-if-changed={}", from.display());
    let folder = to.parent().expect("a file in a folder");
    fs::create_dir_all(folder).expect("a folder of the source tree");
    fs::copy(from, to).unwrap_or_else(|error| panic!("{}: {error}", from.display()));
}

fn main() {
    let out = PathBuf::from(env::var_os("OUT_DIR").expect("cargo sets OUT_DIR"));
    for (from, to) in PUBLISHED {
        copy(&Path::new("published").join(from), &out.join(to));
    }
    for shim in SHIMS {
        copy(&Path::new("shims").join(shim), &out.join(shim));
    }
}
