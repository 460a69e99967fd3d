//! The run program, through its binary.

use std::io::Write;
use std::process::{Command, Stdio};

use oracle::{wire, View, Vote};

fn run(arguments: &[&str], input: &[u8]) -> String {
    let mut child = Command::new(env!("CARGO_BIN_EXE_run"))
        .args(arguments)
        .stdin(Stdio::piped())
        .stdout(Stdio::piped())
        .spawn()
        .expect("the run program starts");
    child.stdin.take().unwrap().write_all(input).unwrap();
    let output = child.wait_with_output().unwrap();
    assert!(output.status.success());
    String::from_utf8(output.stdout).unwrap()
}

const HEADER: &str = "call answer view timed height\n";
const REFUSED: &str = "call answer view timed height\n0 1 0 0 0\n";

fn opened() -> Vec<u8> {
    let mut input = Vec::new();
    wire::write_opening(&mut input, [1, 1, 0, 6, 1]);
    input
}

/// What the lines say after the header, for an opened replica and these bytes.
fn lines(rest: &[u8]) -> String {
    let output = run(&[], &[&opened()[..], rest].concat());
    output.strip_prefix(HEADER).expect("the header line").to_string()
}

fn listing() -> Vec<u8> {
    let mut input = opened();
    for view in [2, 1, 1] {
        wire::write_timer(&mut input, View(view));
    }
    wire::write_propose(&mut input, [1; 32]);
    input
}

#[test]
fn the_listing() {
    let expected = "call answer view timed height\n1 8 1 0 0\n2 0 1 1 0\n3 10 1 1 0\n4 15 1 1 0\n";
    assert_eq!(run(&[], &listing()), expected);
}

#[test]
fn trace_appends_the_output() {
    let mut timeout = "70000000050001000100000000000000".to_string(); // header and view
    timeout.push_str(&"00".repeat(40)); // no high vote
    timeout.push_str("0300000000000000"); // a block certificate: genesis
    timeout.push_str(&"00".repeat(48));
    let expected = format!("{HEADER}1 8 1 0 0 -\n2 0 1 1 0 {timeout}\n3 10 1 1 0 -\n4 15 1 1 0 -\n");
    assert_eq!(run(&["--trace"], &listing()), expected);
}

#[test]
fn an_accepted_opening_prints_no_line() {
    assert_eq!(lines(&[]), "");
}

#[test]
fn bad_openings_stop() {
    let with = |change: fn(&mut Vec<u8>)| {
        let mut input = listing();
        change(&mut input);
        run(&[], &input)
    };
    assert_eq!(run(&[], &[]), REFUSED);
    assert_eq!(run(&[], &opened()[..23]), REFUSED); // cut short
    assert_eq!(run(&[], &opened()[..3]), REFUSED);
    assert_eq!(with(|input| input[14] = 7), REFUSED); // n
    assert_eq!(with(|input| input[16] = 6), REFUSED); // own
    assert_eq!(with(|input| input[4] = 10), REFUSED); // kind
    assert_eq!(with(|input| input[6] = 1), REFUSED); // sender
    assert_eq!(with(|input| input[23] = 1), REFUSED); // padding
    assert_eq!(with(|input| input[0] = 25), REFUSED); // length
}

/// 02, 2.2: "every k ≥ 0 is taken as long as n is at most 32 .. a ring of one box included".
#[test]
fn every_k_is_opened() {
    let run_with = |numbers| {
        let mut input = Vec::new();
        wire::write_opening(&mut input, numbers);
        wire::write_propose(&mut input, [1; 32]);
        wire::write_timer(&mut input, View(2));
        run(&[], &input)
    };
    for numbers in [[2, 0, 1, 8, 0], [1, 2, 2, 10, 0], [0, 0, 31, 32, 0]] {
        assert_eq!(run_with(numbers), format!("{HEADER}1 0 1 0 0\n2 8 1 0 0\n"));
    }
    assert_eq!(run_with([0, 0, 0, 1, 0]), format!("{HEADER}1 0 2 0 1\n2 0 3 2 1\n"));
    assert_eq!(run_with([8, 4, 0, 33, 0]), REFUSED);
    assert_eq!(run_with([0, 0, 32, 33, 0]), REFUSED);
}

#[test]
fn a_record_cut_short_or_too_long_stops() {
    let mut vote = Vec::new();
    wire::write_vote(&mut vote, 0, Vote { view: View(1), name: [1; 32] });
    let line_3 = "1 3 1 0 0\n";
    for length in 1..vote.len() {
        assert_eq!(lines(&vote[..length]), line_3);
    }
    for field in [0u32, 7, 47, 49, 3697, u32::MAX] {
        let mut bad = vote.clone();
        bad[..4].copy_from_slice(&field.to_le_bytes());
        bad.extend_from_slice(&[0; 4000]);
        assert_eq!(lines(&bad), line_3, "length field {field}");
    }
    let mut longest = vec![0; 3696];
    longest[..4].copy_from_slice(&3696u32.to_le_bytes());
    assert_eq!(lines(&longest), "1 4 1 0 0\n"); // kind 0 has no length of its own
    assert_eq!(lines(&[8, 0, 0, 0, 0, 0, 0, 0]), "1 4 1 0 0\n");
}

#[test]
fn its_own_kinds_ask_length_then_sender() {
    let mut timer = Vec::new();
    wire::write_timer(&mut timer, View(1));
    let mut propose = Vec::new();
    wire::write_propose(&mut propose, [1; 32]);
    for record in [&timer, &propose] {
        let mut from_another = record.clone();
        from_another[6] = 1;
        let mut longer = from_another.clone();
        longer.push(0);
        longer[0] += 1;
        let input = [&from_another[..], &from_another, &longer, &timer].concat();
        assert_eq!(lines(&input), "1 6 1 0 0\n2 6 1 0 0\n3 3 1 0 0\n");
    }
}

#[test]
fn a_later_opening_goes_to_the_replica() {
    assert_eq!(lines(&opened()), "1 4 1 0 0\n");
}

#[test]
fn faults_are_options() {
    // With p from c+k+2 the cluster of six releases by five votes instead of six.
    let mut input = Vec::new();
    wire::write_opening(&mut input, [1, 1, 0, 6, 1]);
    let block = oracle::Block { name: [1; 32], parent: oracle::GENESIS, height: oracle::Height(1) };
    wire::write_block(&mut input, 0, &block);
    for sender in [0, 2, 3, 4, 5] {
        wire::write_vote(&mut input, sender, Vote { view: View(3), name: [1; 32] });
    }
    let last = |output: String| output.lines().last().unwrap().to_string();
    assert_eq!(last(run(&[], &input)), "6 0 4 0 0");
    assert_eq!(last(run(&["--p-from-c-k-2"], &input)), "6 0 4 0 1");
}

/// Every `NAME.bin` of the folder of stored runs has a `NAME.txt` with the lines to print.
#[test]
fn stored_runs() {
    let folder = std::path::Path::new(env!("CARGO_MANIFEST_DIR")).join("../runs");
    let files = std::fs::read_dir(folder).unwrap().map(|entry| entry.unwrap().path());
    let inputs: Vec<_> = files.filter(|path| path.extension().is_some_and(|end| end == "bin")).collect();
    assert!(inputs.len() >= 12, "{} stored runs", inputs.len());
    for path in inputs {
        let expected = std::fs::read_to_string(path.with_extension("txt")).unwrap();
        assert_eq!(run(&[], &std::fs::read(&path).unwrap()), expected, "{}", path.display());
    }
}
