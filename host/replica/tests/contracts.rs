//! Every function of the core has a contract that says what it does, but for those that README names.

use std::fs;
use std::path::{Path, PathBuf};

/// What only prints, and the program itself: no contract can say what is printed.
const PRINTING: [&str; 3] = ["main", "print", "print_line"];
/// The program that runs the published vectors: what it prints is compared, so its reading of hexadecimal lines too.
const VECTORS: [&str; 6] = ["main", "lines", "answer_line", "decode", "answer", "show"];

fn root() -> PathBuf {
    Path::new(env!("CARGO_MANIFEST_DIR")).join("../..")
}

/// The sources of all crates.
fn sources() -> Vec<PathBuf> {
    let crates = fs::read_dir(root().join("crates")).expect("crates");
    let folders = crates.map(|entry| entry.expect("a crate").path().join("src"));
    let files = folders.filter_map(|folder| fs::read_dir(folder).ok()).flatten();
    files.map(|file| file.expect("a source").path()).collect()
}

/// Each function with whether an `ensures` stands before the next one. A conversion, `from` or `try_from`, has its equation above it, as the ghost member
/// `from_gives` or `try_from_gives` of its block.
fn functions(source: &Path) -> Vec<(String, bool)> {
    let text = fs::read_to_string(source).expect("a source");
    let code: Vec<&str> = text.lines().map(|line| line.split("//").next().unwrap_or(line)).collect();
    let code = code.join("\n");
    let name = |part: &str| part.split(['(', '<']).next().unwrap_or(part).trim().to_owned();
    let parts: Vec<&str> = code.split("fn ").collect();
    let gives = |before: &str, name: &str| before.contains(&format!("ghost {name}_gives = "));
    let pairs = parts.windows(2).map(|pair| (name(pair[1]), pair[0], pair[1]));
    pairs.map(|(name, before, part)| (name.clone(), part.contains("ensures ") || gives(before, &name))).collect()
}

#[test]
fn every_function_has_a_contract_but_those_that_print_and_run_vectors() {
    let all: Vec<(String, bool)> = sources().iter().flat_map(|source| functions(source)).collect();
    let mut without: Vec<&str> = all.iter().filter(|(_, has)| !has).map(|(name, _)| name.as_str()).collect();
    without.sort_unstable();
    let mut expected = [&PRINTING[..], &VECTORS].concat();
    expected.sort_unstable();
    assert_eq!(without, expected);
    let readme = fs::read_to_string(root().join("README.md")).expect("README.md");
    let said = format!("Of {} functions nine have none", all.len());
    assert!(readme.contains(&said), "README should say: {said}");
}
