//! The stored runs: written again they are the same bytes, and the oracle prints the stored lines.

mod common;

use std::collections::BTreeSet;
use std::fs;
use std::path::PathBuf;

use common::answers;
use oracle::wire::{self, kind};
use oracle::{Faults, Name, Protocol, Replica};
use sim::Proved;
use stories::StoredRun;
use view::{Choice, DecidedBy, Event, Played, Recording, Shown};

fn folder() -> PathBuf {
    PathBuf::from(env!("CARGO_MANIFEST_DIR")).join("../runs")
}

fn stored(name: &str) -> Vec<u8> {
    fs::read(folder().join(name)).unwrap_or_else(|error| panic!("runs/{name}: {error}"))
}

#[test]
fn written_again_they_are_the_same() {
    for file in stories::files() {
        assert!(file.bytes == stored(&file.name), "runs/{}: write it again with the stories command", file.name);
    }
}

#[test]
fn the_folder_has_no_other_files() {
    let written: BTreeSet<String> = stories::files().into_iter().map(|file| file.name).collect();
    let names = fs::read_dir(folder()).unwrap().map(|entry| entry.unwrap().file_name().into_string().unwrap());
    assert_eq!(names.collect::<BTreeSet<_>>(), written);
}

#[test]
fn the_oracle_prints_the_stored_lines() {
    for run in stories::runs() {
        let mut lines = Vec::new();
        let input = stored(&format!("{}.bin", run.name));
        oracle::run::run(&input, oracle::run::Options::default(), &mut lines).unwrap();
        assert!(lines == stored(&format!("{}.txt", run.name)), "{}", run.name);
    }
}

#[test]
fn the_listing_is_the_one_in_the_scope_paper() {
    let expected = "call answer view timed height\n1 8 1 0 0\n2 0 1 1 0\n3 10 1 1 0\n4 15 1 1 0\n";
    assert_eq!(stored("listing.txt"), expected.as_bytes());
}

#[test]
fn commented_calls_are_answered_as_the_comment_says() {
    for run in stories::runs().iter().filter(|run| !run.told.is_empty()) {
        let answers = answers(&run.listing());
        assert_eq!(answers.len(), run.told.len(), "{}", run.name);
        for (at, (call, answer)) in run.told.iter().zip(answers).enumerate() {
            assert_eq!(answer, call.answer, "{} call {}: {}", run.name, at + 1, call.about);
        }
    }
}

#[test]
fn every_refusal_is_there_but_2() {
    let answers: BTreeSet<u16> = stories::runs().iter().flat_map(|run| answers(&run.listing())).collect();
    let expected: BTreeSet<u16> = (0..=15).filter(|answer| *answer != 2).collect();
    assert_eq!(answers, expected);
}

/// Which refusals each kind of call can have, by 01's table; 3 ends a run, so one call has it. Propose's 13 takes a
/// chain of 2^62 blocks.
#[test]
fn refusals_has_every_pair_of_kind_and_refusal() {
    let expected: [(u16, &[u16]); 10] = [
        (1, &[3, 5, 6, 7, 8, 10, 11]),
        (2, &[5, 6, 7, 8, 10, 11]),
        (3, &[5, 6, 8, 9, 10]),
        (5, &[4, 5, 6, 7, 8, 9, 10, 11]),
        (6, &[4, 5, 6, 7, 8, 9]),
        (7, &[4, 5, 6, 7, 8, 9, 10, 11, 12, 13, 14]),
        (8, &[5, 6, 10, 11, 12, 13, 14]),
        (9, &[4]),
        (10, &[6, 7, 8, 10]),
        (11, &[5, 6, 11, 12, 14, 15]),
    ];
    let pairs = |(kind, answers): &(u16, &[u16])| answers.iter().map(|answer| (*kind, *answer)).collect::<Vec<_>>();
    let expected: BTreeSet<(u16, u16)> = expected.iter().flat_map(pairs).collect();
    let run = run_of("refusals");
    let refused = run.told.iter().filter(|call| call.answer != 0);
    let found: BTreeSet<(u16, u16)> = refused.map(|call| (oracle::wire::kind_of(&call.record), call.answer)).collect();
    assert_eq!(found, expected);
}

fn run_of(name: &str) -> StoredRun {
    stories::runs().into_iter().find(|run| run.name == name).expect(name)
}

#[test]
fn runs_end_at_their_heights() {
    let heights = [
        ("fast-release", 2),
        ("slow-release", 2),
        ("view-change-keeps-a", 2),
        ("decisive-timeout", 2),
        ("story-3", 1),
        ("damaged", 1),
        ("ten-fast-release", 3),
        ("ten-slow-release", 3),
        ("one-replica", 5),
        ("one-vote-decides", 3),
        ("one-timeout-decides", 2),
    ];
    for (name, height) in heights {
        let listing = run_of(name).listing();
        let last = listing.lines().last().unwrap();
        assert!(last.ends_with(&format!(" {height}")), "{name}: {last}");
    }
}

// ---------------------------------------------------------------- what calls write, which no line shows

/// The calls of a run on this replica.
fn events<C: Shown>(name: &str, options: C::Options) -> Vec<Event> {
    let recording = Recording::read(&stored(&format!("{name}.bin"))).expect("an input");
    let protocol = Protocol::new(recording.settings, Faults::NONE);
    Played::new::<C>(&recording, options, protocol).events
}

fn kinds(event: &Event) -> Vec<u16> {
    event.written.iter().map(|record| wire::kind_of(record)).collect()
}

/// The accepted calls of a run, which the library answers as the oracle does.
fn accepted(name: &str) -> Vec<Event> {
    let events = self::events::<Replica>(name, Faults::NONE);
    assert!(events == self::events::<Proved>(name, ()), "{name}");
    events.into_iter().filter(Event::is_accepted).collect()
}

/// The calls that write these kinds, by their numbers.
fn writing(name: &str, wanted: &[u16]) -> Vec<usize> {
    let calls = accepted(name).into_iter().filter(|event| kinds(event) == wanted);
    calls.map(|event| event.index).collect()
}

/// The eighth vote releases, or the fifth commit; each block certificate came with the sixth vote.
#[test]
fn ten_release_by_eight_votes_or_five_commits() {
    assert_eq!(writing("ten-fast-release", &[3, 2]), [6, 14, 22]);
    assert_eq!(writing("ten-fast-release", &[9]), [8, 16, 24]);
    assert_eq!(writing("ten-slow-release", &[3, 2]), [13, 39, 51]);
    assert_eq!(writing("ten-slow-release", &[9]), [18, 44, 56]);
    assert_eq!(writing("ten-slow-release", &[6]), [31]); // the seventh timeout
}

/// 02's 2.2: "a ring of one box included".
#[test]
fn one_replica_decides_in_one_call() {
    for event in accepted("one-replica") {
        let expected: &[u16] = match event.kind() {
            Some(kind::PROPOSE) => &[7, 1, 3, 2, 9],
            Some(kind::TIMER) => &[5, 6],
            _ => &[],
        };
        assert_eq!(kinds(&event), expected, "call {}", event.index);
    }
    assert_eq!(writing("one-replica", &[7, 1, 3, 2, 9]), [1, 3, 7, 10, 28]);
    assert_eq!(writing("one-replica", &[5, 6]), [4, 8, 9]);
}

#[test]
fn two_rules_run_in_one_call() {
    assert_eq!(writing("one-vote-decides", &[3, 2, 9]), [17, 34]);
    assert_eq!(writing("one-vote-decides", &[1, 3, 2, 9]), [51]);
    assert_eq!(writing("one-timeout-decides", &[5, 6]), [1]);
}

/// 02's 2.3: A is chosen by the timeout of 2, and the next leader builds on it.
#[test]
fn the_next_leader_builds_on_what_one_timeout_decides() {
    let [a, b]: [Name; 2] = [[b'A'; 32], [b'B'; 32]];
    let events = accepted("decisive-timeout");
    let choices: Vec<(usize, Choice)> =
        events.iter().flat_map(|event| event.choices.iter().map(|choice| (event.index, *choice))).collect();
    let decided_by = DecidedBy::Timeout { sender: 2, otherwise: b };
    assert_eq!(choices, [(3, Choice { view: 1, safe: a, decided_by })]);
    let mut written = events.iter().flat_map(|event| &event.written);
    let proposal = written.find(|record| wire::kind_of(record) == kind::PROPOSAL).expect("a proposal");
    assert_eq!(wire::name_at(proposal, 48), a);
}
