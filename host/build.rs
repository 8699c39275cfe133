//! Finds the proved library, has it made by `scripts/make-library` where it is missing or older than
//! the Rattle sources, and links it.

use std::fs;
use std::path::{Path, PathBuf};
use std::process::Command;
use std::time::SystemTime;

fn main() {
    println!("cargo::rerun-if-changed=build.rs");
    let root = repository_root();
    let archive = root.join("target/staticlib/libsnova.a");
    let sources = sources(&root);
    for path in sources.iter().chain([&archive]) {
        println!("cargo::rerun-if-changed={}", path.display());
    }
    if is_stale(&archive, &sources) {
        if let Err(text) = make_library(&root, &archive) {
            println!("cargo::error={text}");
            std::process::exit(1);
        }
    }
    let folder = archive.parent().expect("the archive stands in a folder");
    println!("cargo::rustc-link-search=native={}", folder.display());
    println!("cargo::rustc-link-lib=static=snova");
}

/// The folder above `host/`: the repository of the Rattle crates.
fn repository_root() -> PathBuf {
    let host = PathBuf::from(std::env::var("CARGO_MANIFEST_DIR").expect("cargo sets it"));
    match host.parent() {
        Some(root) => root.to_path_buf(),
        None => host,
    }
}

/// The list of crates, and what stands in each crate's folder. A crate's `out/` is made by `rt` and is
/// no source; the folder's own time changes where `out/` comes or goes, and tells nothing.
fn sources(root: &Path) -> Vec<PathBuf> {
    let below = |path: &Path| match fs::read_dir(path) {
        Ok(entries) => entries.flatten().map(|entry| entry.path()).collect(),
        Err(_) => Vec::new(),
    };
    let crates: Vec<PathBuf> = below(&root.join("crates"));
    let parts = crates.iter().flat_map(|folder| below(folder));
    let mut all = vec![root.join("crates.txt")];
    all.extend(parts.filter(|part| !part.ends_with("out")));
    all
}

/// Whether the archive is missing, or older than one of the sources.
fn is_stale(archive: &Path, sources: &[PathBuf]) -> bool {
    match changed(archive) {
        None => true,
        Some(made) => sources.iter().filter_map(|path| newest(path)).any(|time| time > made),
    }
}

fn changed(path: &Path) -> Option<SystemTime> {
    fs::metadata(path).ok()?.modified().ok()
}

/// The latest change of a file, or of a folder and all below it.
fn newest(path: &Path) -> Option<SystemTime> {
    let own = changed(path);
    match fs::read_dir(path) {
        Ok(entries) => entries.flatten().filter_map(|entry| newest(&entry.path())).chain(own).max(),
        Err(_) => own,
    }
}

fn make_library(root: &Path, archive: &Path) -> Result<(), String> {
    if !root.join("crates.txt").is_file() {
        return Err(format!(
            "{} is missing and {} holds no crates.txt to make it from",
            archive.display(),
            root.display()
        ));
    }
    // What it prints goes to standard error: cargo reads directives from standard output.
    let status = Command::new(root.join("scripts/make-library")).stdout(std::io::stderr()).status();
    match status {
        Err(error) => Err(format!(
            "the proved library {} must be made by `scripts/make-library`, which could not be run ({error})",
            archive.display()
        )),
        Ok(status) if !status.success() => Err(format!(
            "`scripts/make-library` in {} failed ({status}); it needs the Rattle toolchain's `rt` on PATH",
            root.display()
        )),
        Ok(_) if !archive.is_file() => {
            Err(format!("`scripts/make-library` ended well but wrote no {}", archive.display()))
        }
        Ok(_) => Ok(()),
    }
}
