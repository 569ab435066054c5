//! Finds libfenhamper.a, or has it made, and says how to link it.
use std::env;
use std::fs;
use std::path::{Path, PathBuf};
use std::process::{exit, Command};
use std::time::SystemTime;

const LIB_DIR: &str = "FENHAMPER_LIB_DIR";
const ARCHIVE: &str = "libfenhamper.a";
const CRATES: &str = "crates.txt";

fn fail(message: &str) -> ! {
    eprintln!("fenhamper: {message}");
    exit(1)
}

fn warn(message: &str) {
    println!("cargo:warning={message}");
}

// Proves the library and writes the archive.
fn make(root: &Path) {
    let mut tool = Command::new("sh");
    tool.arg("tools/archive").current_dir(root);
    let failed = match tool.status() {
        Ok(status) if status.success() => return,
        Ok(status) => format!("failed ({status})"),
        Err(error) => format!("could not be run ({error})"),
    };
    fail(&format!(
        "target/staticlib/{ARCHIVE} is not there, and tools/archive, which makes it, {failed}. Put \
         `rt`, of the Rattle kit, on PATH, or name the folder that has {ARCHIVE} in {LIB_DIR}"
    ))
}

// The archive is for x86-64. A build for another processor is told so before its linker fails.
fn tell_other_processors() {
    let processor = env::var("CARGO_CFG_TARGET_ARCH").unwrap_or_default();
    if processor != "x86_64" {
        warn(&format!(
            "{ARCHIVE} is for x86-64, and this build for {processor}; a shell that has sourced \
             tools/platform.sh of Fenhamper's repository builds for x86-64, and emulates"
        ));
    }
}

// The sources of the archive: the list of crates, and the crates that it names for this one.
fn sources(root: &Path) -> Vec<PathBuf> {
    let list = root.join(CRATES);
    let text = fs::read_to_string(&list).unwrap_or_default();
    let lower = text
        .lines()
        .find_map(|line| line.strip_prefix("fenhamper_c staticlib:"))
        .unwrap_or_default();
    let names = lower.split_whitespace().chain(["fenhamper_c"]);
    let parts = names.flat_map(|name| {
        let folder = root.join("crates").join(name);
        ["src", "specs", "proofs"].map(|part| folder.join(part))
    });
    let there = parts.filter(|part| part.is_dir());
    [list].into_iter().chain(there).collect()
}

// When a file was last written; of a folder, what is in it.
fn written(path: &Path) -> Option<SystemTime> {
    if !path.is_dir() {
        return path.metadata().and_then(|of| of.modified()).ok();
    }
    let entries = fs::read_dir(path).ok()?;
    entries
        .filter_map(|entry| written(&entry.ok()?.path()))
        .max()
}

// Warns of an archive that is older than a source of it.
fn tell_stale(root: &Path, archive: &Path) {
    let made = written(archive);
    let sources = sources(root);
    for source in &sources {
        println!("cargo:rerun-if-changed={}", source.display());
    }
    if let Some(source) = sources.iter().find(|source| written(source) > made) {
        let source = source.strip_prefix(root).unwrap_or(source);
        warn(&format!(
            "target/staticlib/{ARCHIVE} is older than {}: tools/archive makes it anew",
            source.display()
        ));
    }
}

// The folder of the archive that is made from the repository around this package.
fn of_repository(package: &Path) -> PathBuf {
    let root = package.join("../..");
    if !root.join(CRATES).is_file() {
        fail(&format!(
            "this package stands outside Fenhamper's repository, where {ARCHIVE} is made: name the \
             folder that has it in {LIB_DIR}"
        ));
    }
    let folder = root.join("target/staticlib");
    let archive = folder.join(ARCHIVE);
    if !archive.is_file() {
        make(&root);
    }
    tell_stale(&root, &archive);
    folder
}

fn main() {
    let package = PathBuf::from(env::var_os("CARGO_MANIFEST_DIR").unwrap_or_default());
    println!("cargo:rerun-if-changed=build.rs");
    println!("cargo:rerun-if-env-changed={LIB_DIR}");
    tell_other_processors();
    let folder = match env::var_os(LIB_DIR) {
        // a relative folder is taken from this package's
        Some(named) => package.join(named),
        None => of_repository(&package),
    };
    let archive = folder.join(ARCHIVE);
    if !archive.is_file() {
        fail(&format!("{} is not there", archive.display()));
    }
    println!("cargo:rerun-if-changed={}", archive.display());
    println!("cargo:rustc-link-search=native={}", folder.display());
    println!("cargo:rustc-link-lib=static=fenhamper");
}
