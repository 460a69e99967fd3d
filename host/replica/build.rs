//! Links the proved library. `tools/library` proves and writes it; that takes a minute and more, so it is run only where
//! the library isn't there or older than a source.

use std::path::{Path, PathBuf};
use std::process::Command;
use std::time::SystemTime;
use std::{env, fs, io};

fn main() {
    let folder = PathBuf::from(env::var_os("CARGO_MANIFEST_DIR").expect("cargo says where the crate is"));
    let root = folder.join("../..");
    let sources = sources(&root).expect("the crates' sources");
    let archive = root.join("target/staticlib/libreplica.a");
    for path in sources.iter().chain([&archive]) {
        println!("cargo:rerun-if-changed={}", path.display());
    }
    if is_stale(&archive, &sources) {
        prove(&root);
    }
    println!("cargo:rustc-link-search=native={}", root.join("target/staticlib").display());
    println!("cargo:rustc-link-lib=static=replica");
}

/// What the library is made of. A crate's `out` is what the prover keeps there.
fn sources(root: &Path) -> io::Result<Vec<PathBuf>> {
    let mut sources = vec![root.join("crates.txt")];
    for entry in fs::read_dir(root.join("crates"))? {
        let folder = entry?.path();
        sources
            .extend(["src", "specs", "proofs"].map(|part| folder.join(part)).into_iter().filter(|part| part.exists()));
    }
    Ok(sources)
}

/// Whether the library is missing or a source is newer.
fn is_stale(archive: &Path, sources: &[PathBuf]) -> bool {
    let newest = |paths: &[PathBuf]| paths.iter().map(|path| changed(path)).collect::<io::Result<Vec<_>>>();
    match (changed(archive), newest(sources)) {
        (Ok(built), Ok(times)) => times.into_iter().any(|time| time > built),
        _ => true,
    }
}

/// When a file, or anything in a folder, was last changed.
fn changed(path: &Path) -> io::Result<SystemTime> {
    let about = fs::metadata(path)?;
    let mut last = about.modified()?;
    if about.is_dir() {
        for entry in fs::read_dir(path)? {
            last = last.max(changed(&entry?.path())?);
        }
    }
    Ok(last)
}

fn prove(root: &Path) {
    let status = Command::new(root.join("tools/library")).status();
    match status {
        Ok(status) if status.success() => {}
        Ok(status) => panic!("`tools/library` in the repository's root: {status}"),
        Err(error) => panic!("`tools/library` builds the proved library, and can't be run: {error}"),
    }
}
