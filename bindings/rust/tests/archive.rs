//! How the crate finds its archive, and what cargo says where it is missing, old, or of another version. A copy of the crate is built
//! here, in a repository that has the archive's sources or lacks them. That lies among the temporary files: a source of Rattle has no
//! place in this repository but in a crate.
use std::env;
use std::fs::{self, File};
use std::path::{Path, PathBuf};
use std::process::{self, Command};
use std::time::{Duration, SystemTime};
use vejupa::{raw, VERSION};

/// The symbol that bears the version.
fn symbol() -> String {
    format!("vejupa_version_{}", VERSION.replace('.', "_"))
}

#[test]
fn the_archive_is_of_the_crates_version() {
    let parts: Vec<u32> = VERSION.split('.').map(|n| n.parse().unwrap()).collect();
    assert_eq!(parts.len(), 3);
    assert_eq!(
        raw::version(),
        10_000 * parts[0] + 100 * parts[1] + parts[2]
    );
}

/// A repository of its own with a copy of the crate in it. It is removed in the end.
struct Repository(PathBuf);

impl Repository {
    fn new(name: &str) -> Repository {
        let root = env::temp_dir().join(format!("vejupa-{}-{name}", process::id()));
        let _ = fs::remove_dir_all(&root);
        let repository = Repository(root);
        let here = Path::new(env!("CARGO_MANIFEST_DIR"));
        for file in ["Cargo.toml", "Cargo.lock", "build.rs"] {
            repository.write(&format!("bindings/rust/{file}"), &read(&here.join(file)));
        }
        for file in fs::read_dir(here.join("src")).unwrap() {
            let file = file.unwrap();
            let name = file.file_name().into_string().unwrap();
            repository.write(&format!("bindings/rust/src/{name}"), &read(&file.path()));
        }
        // Of all calls the one that needs least of the crate.
        let program = b"fn main() { assert!(vejupa::bytes_are_likely_text(b\"warp\")); }";
        repository.write("bindings/rust/examples/program.rs", program);
        repository
    }

    fn write(&self, file: &str, bytes: &[u8]) {
        let file = self.0.join(file);
        fs::create_dir_all(file.parent().unwrap()).unwrap();
        fs::write(file, bytes).unwrap();
    }

    /// Says that a file was changed so many seconds ago.
    fn date(&self, file: &str, seconds: u64) {
        let file = File::options().write(true).open(self.0.join(file)).unwrap();
        let time = SystemTime::now() - Duration::from_secs(seconds);
        file.set_modified(time).unwrap();
    }

    /// What a command of cargo says, and whether it succeeds.
    fn cargo(&self, arguments: &[&str], lib: Option<&str>) -> (bool, String) {
        let mut command = Command::new(env!("CARGO"));
        command
            .args(arguments)
            .args(["--offline", "--locked", "--target-dir"])
            .arg(self.0.join("built"))
            .current_dir(self.0.join("bindings/rust"))
            .env_remove("VEJUPA_LIB");
        if let Some(lib) = lib {
            command.env("VEJUPA_LIB", lib);
        }
        let done = command.output().unwrap();
        let said = String::from_utf8(done.stderr).unwrap();
        (done.status.success(), said)
    }
}

impl Drop for Repository {
    fn drop(&mut self) {
        let _ = fs::remove_dir_all(&self.0);
    }
}

fn read(file: &Path) -> Vec<u8> {
    fs::read(file).unwrap_or_else(|error| panic!("{}: {error}", file.display()))
}

/// The archive that this test was linked with.
fn archive() -> Vec<u8> {
    let lib = env::var_os("VEJUPA_LIB").unwrap_or_else(|| "../../target/staticlib".into());
    read(
        &Path::new(env!("CARGO_MANIFEST_DIR"))
            .join(lib)
            .join("libvejupa.a"),
    )
}

#[test]
fn an_archive_that_is_missing() {
    let repository = Repository::new("missing");
    for arguments in [&["check", "--all-targets"][..], &["doc"]] {
        let (succeeds, said) = repository.cargo(arguments, None);
        assert!(succeeds, "{said}");
        assert!(said.contains("libvejupa.a is missing"), "{said}");
        assert!(said.contains("`tools/archive`"), "{said}");
    }
    let (succeeds, said) = repository.cargo(&["build", "--example", "program"], None);
    assert!(!succeeds);
    assert!(said.contains("libvejupa.a is missing"), "{said}");
    assert!(said.contains("library `vejupa`"), "{said}");

    // It is found as soon as it is there, beside the crate or where VEJUPA_LIB says.
    repository.write("elsewhere/libvejupa.a", &archive());
    let run = ["run", "--example", "program"];
    let (succeeds, said) = repository.cargo(&run, Some("../../elsewhere"));
    assert!(succeeds && !said.contains("warning"), "{said}");
    repository.write("target/staticlib/libvejupa.a", &archive());
    let (succeeds, said) = repository.cargo(&run, None);
    assert!(succeeds && !said.contains("warning"), "{said}");
}

#[test]
fn an_archive_older_than_its_sources() {
    let repository = Repository::new("old");
    // The archive's own crate, two that it rests on, and one below these; and what is no source of it: a program, the list, a proof.
    repository.write(
        "crates.txt",
        b"text:\nrow: text\nvejupa: row\nvejupa_c staticlib: row vejupa\nshow_row: row\n",
    );
    let sources = [
        "crates/vejupa_c/src/lib.rt",
        "crates/vejupa/src/lib.rt",
        "crates/row/src/lib.rt",
        "crates/text/src/lib.rt",
    ];
    let others = [
        "crates.txt",
        "crates/show_row/src/main.rt",
        "crates/row/proofs/Proof.antt",
    ];
    for file in sources.iter().chain(&others[1..]) {
        repository.write(file, b"");
    }
    for file in sources.iter().chain(&others) {
        repository.date(file, 1000);
    }
    repository.write("target/staticlib/libvejupa.a", &archive());
    repository.date("target/staticlib/libvejupa.a", 900);
    let check = || {
        let (succeeds, said) = repository.cargo(&["check"], None);
        assert!(succeeds, "{said}");
        said
    };
    for file in others {
        repository.date(file, 0);
        let said = check();
        assert!(!said.contains("warning"), "{said}");
    }
    for file in sources {
        repository.date(file, 0);
        let said = check();
        assert!(said.contains("libvejupa.a is older than"), "{said}");
        assert!(
            said.contains(file) && said.contains("`tools/archive`"),
            "{said}"
        );
        repository.date(file, 1000);
    }

    // A file that was not there before.
    repository.write("crates/row/src/new.rt", b"");
    let said = check();
    assert!(said.contains("crates/row/src/new.rt"), "{said}");
}

/// The name in the archive's tables is replaced by one of the same length: to the linker it is an archive of another version.
#[test]
fn an_archive_of_another_version() {
    let symbol = symbol();
    let mut other = archive();
    let mut replaced = 0;
    for at in 0..other.len() - symbol.len() {
        if other[at..].starts_with(symbol.as_bytes()) {
            other[at] = b'w';
            replaced += 1;
        }
    }
    assert!(replaced > 0);
    let repository = Repository::new("other");
    repository.write("target/staticlib/libvejupa.a", &other);
    for release in [false, true] {
        let mut arguments = vec!["build", "--example", "program"];
        arguments.extend(release.then_some("--release"));
        let (succeeds, said) = repository.cargo(&arguments, None);
        assert!(!succeeds, "linked with another version");
        assert!(said.contains(&symbol), "{said}");
    }
}
