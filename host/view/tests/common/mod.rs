//! The command and the stored runs.
#![allow(dead_code)]

use std::path::{Path, PathBuf};
use std::process::Command;

pub struct Output {
    pub code: Option<i32>,
    pub out: String,
    pub err: String,
}

/// Runs the command in the folder of the workspace.
pub fn view(arguments: &[&str]) -> Output {
    let output = Command::new(env!("CARGO_BIN_EXE_view"))
        .current_dir(Path::new(env!("CARGO_MANIFEST_DIR")).join(".."))
        .args(arguments)
        .output()
        .expect("the command starts");
    let text = |bytes: &[u8]| String::from_utf8_lossy(bytes).into_owned();
    Output { code: output.status.code(), out: text(&output.stdout), err: text(&output.stderr) }
}

/// What the command prints, which must succeed.
pub fn shown(arguments: &[&str]) -> String {
    let output = view(arguments);
    assert_eq!(output.code, Some(0), "{arguments:?}: {}", output.err);
    output.out
}

pub fn stored(name: &str) -> Vec<u8> {
    let path = Path::new(env!("CARGO_MANIFEST_DIR")).join("../runs").join(name);
    std::fs::read(path).unwrap_or_else(|error| panic!("runs/{name}: {error}"))
}

/// The names of the stored runs of one replica that opening takes.
pub fn names() -> Vec<String> {
    let folder = Path::new(env!("CARGO_MANIFEST_DIR")).join("../runs");
    let files = std::fs::read_dir(folder).unwrap().map(|entry| entry.unwrap().file_name().into_string().unwrap());
    let mut names: Vec<String> = files.filter_map(|name| name.strip_suffix(".bin").map(str::to_string)).collect();
    names.retain(|name| !name.starts_with("bad-settings"));
    names.sort();
    assert!(names.len() > 10, "{names:?}");
    names
}

/// A file for this test alone.
pub fn scratch(name: &str) -> PathBuf {
    std::env::temp_dir().join(format!("view-{}-{name}", std::process::id()))
}
