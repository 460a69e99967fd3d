//! The proved run program on every stored input.

mod common;

use std::fs;
use std::path::Path;

#[test]
fn the_proved_program_prints_the_stored_lines() {
    let folder = Path::new(env!("CARGO_MANIFEST_DIR")).join("../runs");
    for run in stories::runs() {
        let input = fs::read(folder.join(format!("{}.bin", run.name))).expect("a stored input");
        let expected = fs::read_to_string(folder.join(format!("{}.txt", run.name))).expect("a stored listing");
        assert_eq!(common::RUN.printed(&input), expected, "{}", run.name);
    }
}

/// The lines that the README shows are the last of that run.
#[test]
fn the_readme_shows_the_last_lines() {
    let root = Path::new(env!("CARGO_MANIFEST_DIR")).join("../..");
    let readme = fs::read_to_string(root.join("README.md")).expect("README.md");
    let listing = fs::read_to_string(root.join("host/runs/story-2.txt")).expect("a stored listing");
    let (_, shown) = readme.split_once("```text\ncall answer view timed height\n...\n").expect("lines of a run");
    let (shown, _) = shown.split_once("```").expect("their end");
    assert!(!shown.is_empty() && listing.ends_with(shown), "{shown}");
}
