//! The folder's README: a table of all runs, and the commented calls of those that have comments.

use crate::{runs, StoredRun, Told};

const HEAD: &str = "\
# Stored runs

Written by `cargo run --offline -p stories -- runs` from the folder above; a test asserts that these files are what it writes. The first are
runs in the cluster of six, (f, c, k) = (1, 1, 0): one replica may lie, one may stop. At the end are the cluster of ten that document 000
measures in Section 6, the cluster of one, and settings with which two rules run in one call.

`NAME.bin` is an input for 01's run program and `NAME.txt` is exactly what the program prints for it. Tests compare the oracle's
program with them, and the proved program too, which they also run on these inputs cut, damaged and in portions.

| run | f, c, k | n | own number | calls | what it shows |
|---|---|---|---|---|---|
";

const STORY: &str = "
`story.run` is the whole story in one file, all calls of all honest replicas in order (the format stands at the head of
`view/src/recording.rs`), and `story-wrong.run` is the same story among replicas that rank a weak certificate over a block
certificate of its view. `story-beside.txt` has the calls in which the two differ, and the releases side by side. The lying leader, replica 0,
has no calls and so no input. `cargo run --offline -p view -- runs/story.run` tells the story call by call.

Not in these runs: refusal 2, which the run program can't reach, since its regions are as long as they must be and only opening and
calls write them; and propose refused with 13, which takes a chain of 2^62 blocks.
";

pub fn readme() -> String {
    let runs = runs();
    let mut text = HEAD.to_string();
    runs.iter().for_each(|run| text.push_str(&run_row(run)));
    text.push_str(STORY);
    for run in runs.iter().filter(|run| !run.told.is_empty()) {
        text.push_str(&format!("\n## {}, call by call\n\n| call | answer | what it is |\n|---|---|---|\n", run.name));
        text.push_str(&told_rows(&run.told));
    }
    text
}

fn run_row(run: &StoredRun) -> String {
    let [f, c, k, n, own] = [8, 10, 12, 14, 16].map(|at| oracle::wire::u16_at(&run.input, at));
    let calls = run.listing().lines().filter(|line| !line.starts_with("call") && !line.starts_with("0 ")).count();
    format!("| `{}` | {f}, {c}, {k} | {n} | {own} | {calls} | {} |\n", run.name, run.about)
}

/// Calls one after another with the same answer and comment make one row.
fn told_rows(told: &[Told]) -> String {
    let mut rows = String::new();
    let mut first = 0;
    while first < told.len() {
        let same = |call: &&Told| call.about == told[first].about && call.answer == told[first].answer;
        let count = told[first..].iter().take_while(same).count();
        let numbers = if count == 1 { format!("{}", first + 1) } else { format!("{} to {}", first + 1, first + count) };
        rows.push_str(&format!("| {numbers} | {} | {} |\n", told[first].answer, told[first].about));
        first += count;
    }
    rows
}
