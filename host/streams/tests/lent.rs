//! Lent regions of any content: what their inputs cover, and that loading and saving lose no byte.

use oracle::lent;
use streams::{lent_input, Kind, LentCoverage, Path, Row};

/// Playing an input also compares each call with 01's loop to the letter.
#[test]
fn calls_on_garbage_come_upon_every_rule_and_answer() {
    let mut coverage = LentCoverage::default();
    lent_input(0..1_000, 20, &mut coverage);
    println!("{coverage}");
    let calls = &coverage.calls;
    assert!(calls.calls() > 15_000 && calls.accepted_percent() >= 30);
    assert!(coverage.ran.iter().all(|&times| times > 300), "every rule ran often: {:?}", coverage.ran);
    assert!(coverage.turned_away > 30 && coverage.turned_away < 200);
    assert!(coverage.too_many > 5, "{} states with an n over 32", coverage.too_many);
    assert!(coverage.openings.iter().all(|&times| times > 0));
    assert!(Path::ALL.into_iter().all(|path| calls.of_path(path) > 0), "{:?}", calls.missing_paths());
    assert!(Kind::ALL[..9].iter().all(|kind| calls.of(Row::Plain(*kind), 0) > 50));
    assert!((0..16)
        .filter(|answer| *answer != 1)
        .all(|answer| Kind::ALL.iter().any(|kind| calls.of(Row::Plain(*kind), answer) > 0)));
}

/// Each state and each call has its line; a seed gives the same input again.
#[test]
fn inputs_run_to_their_end() {
    let mut coverage = LentCoverage::default();
    let input = lent_input(7..17, 12, &mut coverage);
    assert_eq!(input, lent_input(7..17, 12, &mut LentCoverage::default()));
    let mut lines = Vec::new();
    lent::run(&input, &mut lines).unwrap();
    let lines = String::from_utf8(lines).unwrap();
    let states = lines.lines().filter(|line| line.starts_with("state ")).count();
    let openings = coverage.openings.iter().sum::<u64>();
    assert_eq!((states as u64, lines.lines().count() as u64), (10, 10 + coverage.calls.calls() + openings));
}
