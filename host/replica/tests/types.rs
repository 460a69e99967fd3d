//! A height where the code wants a view, or a view where it wants a height, does not compile: a program over the crates
//! of the core is taken with the right types, and with the other ones each of its lines is refused.

use std::fs;
use std::path::{Path, PathBuf};
use std::process::{Command, Stdio};

/// Its lines, each behind the type that is wanted at `KIND`.
const LINES: [(&str, &str); 7] = [
    ("View", "let row = memory::kept::vote_row(KIND(1));"),
    ("View", "let first = memory::window::lowest(KIND(9));"),
    ("View", "let low = refusals::early::below_view(settings::View(1), KIND(1));"),
    ("View", "let vote = wire::Vote { view: KIND(1), name: [0u8; 32] };"),
    ("View", "let quorums = memory::decided::Quorums { view: KIND(1), n: 4, votes: 3, commits: 3 };"),
    ("Height", "let child = wire::Child { name: [1u8; 32], parent: [0u8; 32], height: KIND(1) };"),
    ("Height", "let release = wire::Release { view: settings::View(1), name: [1u8; 32], height: KIND(1) };"),
];

fn root() -> PathBuf {
    Path::new(env!("CARGO_MANIFEST_DIR")).join("../..")
}

/// A folder that goes with the test. It stands outside of the repository, where `rt` asks of all Rattle code that a crate
/// has it.
struct Temporary(PathBuf);

impl Drop for Temporary {
    fn drop(&mut self) {
        let _ = fs::remove_dir_all(&self.0);
    }
}

/// A repository of the core's code, without specs and proofs, with room for a program.
fn repository() -> Temporary {
    let copy = std::env::temp_dir().join(format!("types-{}", std::process::id()));
    let crates = fs::read_to_string(root().join("crates.txt")).expect("crates.txt");
    let program = crates.lines().find_map(|line| line.strip_prefix("run:")).expect("what the run program rests on");
    for name in crates.lines().filter_map(|line| line.split([' ', ':']).next()) {
        let from = root().join("crates").join(name).join("src");
        let Ok(files) = fs::read_dir(&from) else { continue };
        let to = copy.join("crates").join(name).join("src");
        fs::create_dir_all(&to).expect("a folder");
        for file in files.map(|file| file.expect("a file")) {
            fs::copy(file.path(), to.join(file.file_name())).expect("a copy");
        }
    }
    fs::write(copy.join("crates.txt"), format!("{crates}probe:{program}\n")).expect("crates.txt");
    fs::create_dir_all(copy.join("crates/probe/src")).expect("a folder");
    fs::write(copy.join("crates/probe/stdout"), "").expect("a file");
    Temporary(copy)
}

/// Whether the program of these lines compiles and runs to its end, and what `rt` says of it. Nothing is proved.
fn tried(repository: &Path, lines: &[String]) -> (bool, String) {
    let program = format!("fn main() {{\n{}}}\n", lines.concat());
    fs::write(repository.join("crates/probe/src/main.rt"), program).expect("a program");
    let folder = repository.join("crates/probe");
    let tried = Command::new("rt").arg("try").stdin(Stdio::null()).current_dir(folder).output().expect("rt runs");
    let said = [tried.stdout, tried.stderr].concat();
    (tried.status.success(), String::from_utf8_lossy(&said).into_owned())
}

fn typed(line: &str, kind: &str) -> String {
    format!("    {}\n", line.replace("KIND", &format!("settings::{kind}")))
}

#[test]
fn a_height_is_no_view_and_a_view_no_height() {
    let repository = repository();
    let (taken, said) = tried(&repository.0, &LINES.map(|(kind, line)| typed(line, kind)));
    assert!(taken, "{said}");
    let other = |kind| if kind == "View" { "Height" } else { "View" };
    let (taken, said) = tried(&repository.0, &LINES.map(|(kind, line)| typed(line, other(kind))));
    assert!(!taken && said.trim_end().ends_with("run=none proved=no"), "{said}");
    for (place, (kind, line)) in (2..).zip(LINES) {
        let of_line = |error: &&str| error.starts_with(&format!("src/main.rt:{place}:"));
        let wanted = format!("error[mismatched-types]: expected `{kind}`, found `{}`", other(kind));
        assert!(said.lines().find(of_line).is_some_and(|error| error.contains(&wanted)), "{line}\n{said}");
    }
}
