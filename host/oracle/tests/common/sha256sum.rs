//! Digests by the program `sha256sum`. Tests of other crates have this file too.

use std::fs;
use std::path::{Path, PathBuf};
use std::process::Command;
use std::sync::atomic::{AtomicU32, Ordering};

/// How many files the program is given at once.
const FILES: usize = 1_000;

/// The digest of each message, in hex.
pub fn sha256sum(messages: &[Vec<u8>]) -> Vec<String> {
    let folder = Folder::new();
    let names: Vec<String> = (0..messages.len()).map(|number| number.to_string()).collect();
    for (name, message) in names.iter().zip(messages) {
        fs::write(folder.0.join(name), message).expect("a file in cargo's folder");
    }
    names.chunks(FILES).flat_map(|names| digests(&folder.0, names)).collect()
}

/// A line has the digest in hex, two blanks, and the name.
fn digests(folder: &Path, names: &[String]) -> Vec<String> {
    let output = Command::new("sha256sum").args(names).current_dir(folder).output().expect("sha256sum runs");
    assert!(output.status.success(), "sha256sum: {}", output.status);
    let text = String::from_utf8(output.stdout).expect("text");
    let digest = |(line, name): (&str, &String)| line.strip_suffix(&format!("  {name}")).expect("its file").to_owned();
    assert_eq!(text.lines().count(), names.len());
    text.lines().zip(names).map(digest).collect()
}

/// A folder that goes with its value.
struct Folder(PathBuf);

impl Folder {
    fn new() -> Folder {
        static FOLDERS: AtomicU32 = AtomicU32::new(0);
        let number = FOLDERS.fetch_add(1, Ordering::Relaxed);
        let folder = format!("sha256sum-{}-{number}", std::process::id());
        let folder = Path::new(env!("CARGO_TARGET_TMPDIR")).join(folder);
        fs::create_dir(&folder).expect("a new folder");
        Folder(folder)
    }
}

impl Drop for Folder {
    fn drop(&mut self) {
        let _ = fs::remove_dir_all(&self.0);
    }
}

/// Bytes as `sha256sum` writes them.
pub fn hex(bytes: &[u8]) -> String {
    bytes.iter().map(|byte| format!("{byte:02x}")).collect()
}
