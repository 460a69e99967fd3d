//! The library from C: the examples are compiled, linked and run, and the header is read as C99, C11 and C++.

#[path = "../../oracle/tests/common/sha256sum.rs"]
mod sha256sum;

use std::fs;
use std::io::Write;
use std::mem::offset_of;
use std::path::{Path, PathBuf};
use std::process::{Command, Output, Stdio};

use oracle::{block_name, wire, Height, GENESIS};
use replica::{raw, Block, Certificate, Counters, Vote};
use sha256sum::{hex, sha256sum};

const STRICT: [&str; 4] = ["-Wall", "-Wextra", "-Werror", "-O2"];
const OPEN: &str = "0 0 10\n";
const DECISIVE: &str = "The choice hung on the timeout of replica 1.\n";
const CONTENTS: &str = "\
a block: 0
a block on it: 0
contents too long: 16
proposed: 0
with other contents: 17
with none: 17
with contents too long: 16
with its own: 0
again: 10
again with other contents: 17
";
const SANITIZER: [&str; 3] = ["-fsanitize=address,undefined", "-fno-sanitize-recover=all", "-DGUARD=0"];

fn folder() -> &'static Path {
    Path::new(env!("CARGO_MANIFEST_DIR"))
}

fn root() -> PathBuf {
    folder().join("../..")
}

fn archive() -> PathBuf {
    root().join("target/staticlib/libreplica.a")
}

fn gcc() -> Command {
    let mut gcc = Command::new("gcc");
    gcc.args(STRICT).arg("-I").arg(folder().join("include"));
    gcc
}

fn output(command: &mut Command) -> Output {
    command.output().unwrap_or_else(|error| panic!("{command:?} can't be run: {error}"))
}

/// What a command wrote; it must succeed.
fn text(command: &mut Command) -> String {
    let Output { status, stdout, stderr } = output(command);
    assert!(status.success(), "{command:?}: {status}\n{}", String::from_utf8_lossy(&stderr));
    String::from_utf8(stdout).expect("text")
}

/// Compiles an example with these flags and links the library.
fn build(example: &str, suffix: &str, flags: &[&str]) -> PathBuf {
    let program = Path::new(env!("CARGO_TARGET_TMPDIR")).join(format!("{example}{suffix}"));
    let source = folder().join("examples").join(example).with_extension("c");
    text(gcc().args(flags).arg(source).arg("-o").arg(&program).arg(archive()));
    program
}

/// What it writes when it is run.
fn run(example: &str, suffix: &str, flags: &[&str]) -> String {
    text(&mut Command::new(build(example, suffix, flags)))
}

/// Each replica of six released one block and went on to the second view.
fn all_released() -> String {
    (0..6).map(|own| format!("{own}: released 1, height 1, view 2\n")).collect()
}

/// The lines of `name.c` for blocks with these contents, each on the one before, as the oracle and `sha256sum` name them.
fn names(contents: &[&[u8]]) -> String {
    let mut parent = GENESIS;
    let mut lines = String::new();
    for (height, contents) in (1u64..).zip(contents) {
        let message = [&parent[..], &height.to_le_bytes(), contents].concat();
        parent = block_name(parent, Height(height), contents).expect("a name");
        assert_eq!(sha256sum(&[message]), [hex(&parent)]);
        lines += &format!("{height} {}\n", hex(&parent));
    }
    lines
}

/// Of the chain that `name.c` makes.
fn made_names() -> String {
    names(&[b"title 7", b"", &[b'x'; 4_096]]) + "4 refused by 16: 4097 bytes, and at most 4096 are taken\n"
}

#[test]
fn the_examples_run() {
    assert_eq!(run("open", "", &["-std=c11"]), OPEN);
    assert_eq!(run("records", "", &["-std=c11"]), all_released());
    assert_eq!(run("decisive", "", &["-std=c11"]), DECISIVE);
    assert_eq!(run("name", "", &["-std=c11"]), made_names());
    assert_eq!(run("contents", "", &["-std=c11"]), CONTENTS);
}

/// Regions of exactly their lengths, so that the sanitizer sees an overrun by the C code; the library's own code isn't
/// instrumented.
#[test]
fn the_examples_run_sanitized() {
    let flags = [&["-std=c11"], &SANITIZER[..]].concat();
    assert_sanitizer();
    assert_eq!(run("open", "-sanitized", &flags), OPEN);
    assert_eq!(run("records", "-sanitized", &flags), all_released());
    assert_eq!(run("decisive", "-sanitized", &flags), DECISIVE);
    assert_eq!(run("name", "-sanitized", &flags), made_names());
    assert_eq!(run("contents", "-sanitized", &flags), CONTENTS);
}

/// The exit code and the words of `decisive.c` in the cluster of six for what it reads.
fn decided(program: &Path, record: &[u8]) -> (Option<i32>, String) {
    let mut command = Command::new(program);
    command.args(["1", "1", "0"]).stdin(Stdio::piped()).stdout(Stdio::piped());
    let mut child = command.spawn().expect("the example starts");
    child.stdin.take().expect("its input").write_all(record).expect("it reads all");
    let ended = child.wait_with_output().expect("it ends");
    (ended.status.code(), String::from_utf8(ended.stdout).expect("text"))
}

/// So many timeouts of view 1, by replicas 0, 1 and on, without a high vote.
fn timeouts_record(count: u16) -> Vec<u8> {
    use oracle::{Certificate, Timeout, View, Vote};
    let timeout = |sender| Timeout { sender, view: View(1), high_vote: Vote::NONE, certificate: Certificate::GENESIS };
    let timeouts: Vec<Timeout> = (0..count).map(timeout).collect();
    let mut record = Vec::new();
    wire::write_timeout_certificate(&mut record, 0, View(1), &timeouts);
    record
}

/// Certificates and what is none; with 33 timeouts one is longer than what the tool reads.
#[test]
fn the_tool_reads_a_certificate() {
    let program = build("decisive", "-read", &["-std=c11"]);
    let refused = |number, meaning| (Some(1), format!("Refused by {number}: {meaning}.\n"));
    let answer = |count| decided(&program, &timeouts_record(count));
    let nobody = (Some(0), "The choice hung on no single timeout.\n".to_owned());
    assert_eq!((answer(4), answer(6)), (nobody.clone(), nobody));
    assert_eq!(answer(3), refused(9, "it has too few timeouts, or one that isn't good"));
    assert_eq!(answer(32), refused(5, "padding, a high vote, a signer set or an inner timeout isn't as it must be"));
    assert_eq!(answer(33), refused(3, "a length is wrong"));
    assert_eq!(decided(&program, b""), refused(3, "a length is wrong"));
}

/// The exit code of `name.c` with these words, and its lines.
fn named(program: &Path, words: &[&str]) -> (Option<i32>, String) {
    let ended = output(Command::new(program).args(words));
    (ended.status.code(), String::from_utf8(ended.stdout).expect("text"))
}

/// The contents as words; it stops where they are too long.
#[test]
fn the_tool_names_the_blocks_of_a_chain() {
    let program = build("name", "-words", &["-std=c11"]);
    let (longest, longer) = ("a".repeat(4_096), "a".repeat(4_097));
    let chain = names(&[b"title 7 issued", b"", b"title 7 passed on", longest.as_bytes()]);
    let words = ["title 7 issued", "", "title 7 passed on", &longest];
    assert_eq!(named(&program, &words), (Some(0), chain));
    let refused = names(&[b"one"]) + "2 refused by 16: 4097 bytes, and at most 4096 are taken\n";
    assert_eq!(named(&program, &["one", &longer, "three"]), (Some(1), refused));
}

/// The sanitizer is there, and it stops a program that writes behind a region.
fn assert_sanitizer() {
    let program = Path::new(env!("CARGO_TARGET_TMPDIR")).join("overrun");
    let source = program.with_extension("c");
    let overrun = "#include <stdlib.h>\nint main(int count, char **words) \
        { char *a = calloc((size_t)count, 8); a[8 * count] = words[0][0]; return a[0]; }";
    fs::write(&source, overrun).expect("a file in cargo's folder");
    let built = output(gcc().args(SANITIZER).arg(&source).arg("-o").arg(&program));
    let reason = String::from_utf8_lossy(&built.stderr);
    assert!(built.status.success(), "gcc has no address and undefined behaviour sanitizer here: {reason}");
    let ran = output(&mut Command::new(&program));
    let report = String::from_utf8_lossy(&ran.stderr);
    assert!(report.contains("heap-buffer-overflow"), "the sanitizer doesn't work here: {} {report}", ran.status);
}

#[test]
fn the_header_is_c_and_cpp() {
    let header = folder().join("include/hydrangea.h");
    for (language, standard) in
        [("c", "-std=c99"), ("c", "-std=c11"), ("c++", "-std=c++98"), ("c++", "-std=c++11"), ("c++", "-std=c++17")]
    {
        text(gcc().args(["-x", language, standard, "-pedantic", "-fsyntax-only"]).arg(&header));
    }
}

/// The header declares the calls that the library exports, and no others.
#[test]
fn the_header_declares_every_call() {
    let symbols = text(Command::new("nm").args(["-g", "--defined-only"]).arg(archive()));
    let names = symbols.lines().filter_map(|line| line.split(' ').next_back());
    let mut exported: Vec<&str> = names.filter(|name| name.starts_with("hydrangea_")).collect();
    exported.sort_unstable();
    let header = fs::read_to_string(folder().join("include/hydrangea.h")).expect("the header");
    let functions = header.lines().filter(|line| line.starts_with("hydrangea_"));
    let name = |line: &str| line.split([' ', '(']).nth(1).map(str::to_owned);
    let mut declared: Vec<String> = functions.filter_map(name).collect();
    declared.sort_unstable();
    assert_eq!(declared, exported);
}

/// What the library needs from outside is what docs/INTERFACE.md says: two functions that every C library has, or a host without one writes.
#[test]
fn the_library_needs_two_functions() {
    let symbols = text(Command::new("nm").args(["-g", "--undefined-only"]).arg(archive()));
    let mut needed: Vec<&str> = symbols.lines().filter_map(|line| line.split_once(" U ").map(|(_, name)| name)).collect();
    needed.sort_unstable();
    assert_eq!(needed, ["memcpy", "memset"]);
    let interface = fs::read_to_string(root().join("docs/INTERFACE.md")).expect("docs/INTERFACE.md");
    assert!(interface.contains("needs `memcpy` and `memset` alone"));
}

/// Lengths, and the place of every field, are those of the Rust side.
#[test]
fn the_header_has_the_layout() {
    let facts = [
        ("HYDRANGEA_MEMORY", raw::MEMORY),
        ("HYDRANGEA_STORE", raw::STORE),
        ("HYDRANGEA_OUTPUT", raw::OUTPUT),
        ("HYDRANGEA_LEADERS", raw::LEADERS),
        ("HYDRANGEA_CONTENTS", raw::CONTENTS),
        ("offsetof(hydrangea_block, name)", offset_of!(Block, name)),
        ("offsetof(hydrangea_block, parent)", offset_of!(Block, parent)),
        ("offsetof(hydrangea_block, height)", offset_of!(Block, height)),
        ("offsetof(hydrangea_vote, view)", offset_of!(Vote, view)),
        ("offsetof(hydrangea_vote, name)", offset_of!(Vote, name)),
        ("offsetof(hydrangea_signed, view)", offset_of!(Certificate, view)),
        ("offsetof(hydrangea_signed, name)", offset_of!(Certificate, name)),
        ("offsetof(hydrangea_signed, signers)", offset_of!(Certificate, signers)),
        ("offsetof(hydrangea_counters, view)", offset_of!(Counters, view)),
        ("offsetof(hydrangea_counters, timed)", offset_of!(Counters, timed)),
        ("offsetof(hydrangea_counters, high)", offset_of!(Counters, high_vote)),
        ("offsetof(hydrangea_counters, lock)", offset_of!(Counters, lock)),
        ("offsetof(hydrangea_counters, weak)", offset_of!(Counters, best_weak)),
        ("offsetof(hydrangea_counters, tip)", offset_of!(Counters, tip)),
        ("offsetof(hydrangea_reply, refusal)", offset_of!(raw::Reply, refusal)),
        ("offsetof(hydrangea_reply, written)", offset_of!(raw::Reply, written)),
        ("offsetof(hydrangea_decisive_reply, refusal)", offset_of!(raw::Decisive, refusal)),
        ("offsetof(hydrangea_decisive_reply, found)", offset_of!(raw::Decisive, found)),
        ("offsetof(hydrangea_decisive_reply, sender)", offset_of!(raw::Decisive, sender)),
        ("offsetof(hydrangea_named, refusal)", offset_of!(raw::Named, refusal)),
        ("offsetof(hydrangea_named, name)", offset_of!(raw::Named, name)),
    ];
    let asserted = facts.map(|(what, number)| format!("_Static_assert({what} == {number}, \"{what}\");\n"));
    let source = Path::new(env!("CARGO_TARGET_TMPDIR")).join("layout.c");
    fs::write(&source, format!("#include \"hydrangea.h\"\n{}", asserted.concat())).expect("a file in cargo's folder");
    text(gcc().args(["-std=c11", "-fsyntax-only"]).arg(&source));
}

/// A C program printed in docs/INTERFACE.md is `open.c`.
#[test]
fn the_documented_program_is_the_example() {
    let interface = fs::read_to_string(root().join("docs/INTERFACE.md")).expect("docs/INTERFACE.md");
    let Some((_, printed)) = interface.split_once("```c\n") else { return };
    let (printed, _) = printed.split_once("```").expect("the end of the program");
    let example = fs::read_to_string(folder().join("examples/open.c")).expect("the example");
    assert_eq!(printed, example);
}

/// The README's command for C, run as it is printed there.
#[test]
fn the_readme_compiles_the_example() {
    let readme = fs::read_to_string(root().join("README.md")).expect("README.md");
    let command = readme.lines().find(|line| line.starts_with("gcc ")).expect("a command for C");
    assert_eq!(text(Command::new("sh").arg("-c").arg(command).current_dir(root())), OPEN);
}
