//! Random runs: one chain in every one of them, and everything in the coverage table reached.

use oracle::{Faults, Replica, Settings};
use sim::{settings, Coverage, Failure, Family, Names, Plan, Row, Style};

fn plan(settings: Vec<Settings>, faults: Faults, seed: u64, calls: u64) -> Plan<Replica> {
    let (style, names) = (Style::Both, Names::Both);
    Plan { options: faults, faults, settings, leaders: None, seed, calls, longest: None, style, names }
}

/// What runs without an error reach, all on one chain.
fn covered(settings: Vec<Settings>, seed: u64, calls: u64) -> Coverage {
    let mut coverage = Coverage::default();
    let made = plan(settings, Faults::NONE, seed, calls).play(&mut coverage).expect("one chain");
    assert!(made >= calls);
    coverage
}

#[test]
fn a_million_calls_one_chain() {
    let mut all = Coverage::default();
    for family in Family::ALL {
        let coverage = covered(family.settings(), 2024, 300_000);
        for row in [Row::FastRelease, Row::SlowRelease, Row::RuleA, Row::RuleB, Row::RuleC] {
            assert!(coverage.count(row) > 200, "{family:?}: {} times {row:?}", coverage.count(row));
        }
        assert_eq!(coverage.count(Row::Lies) > 0, family != Family::NobodyLies, "{family:?}");
        all.merge(&coverage);
    }
    println!("{all}");
    // 2 is about regions: calls leave a sound state, and the output of this implementation grows as needed.
    assert_eq!(all.empty_rows(), ["answer 2"]);
}

/// One replica decides alone: each block certificate that it forms is a release, by its own vote and commit.
#[test]
fn the_cluster_of_one_releases_what_it_proposes() {
    let coverage = covered(vec![settings::one()], 3, 30_000);
    println!("{coverage}");
    assert!(coverage.count(Row::BothReleases) > 20_000);
    assert_eq!(coverage.count(Row::BothReleases), coverage.count(Row::RuleC));
    assert_eq!(coverage.count(Row::BothReleases), coverage.count(Row::RuleD));
    assert!(coverage.count(Row::RuleB) > 1_000);
}

/// What 02's 2.2 lets in: clusters in which f+1 timeouts and one's own are a certificate, and clusters in which a fast
/// release takes no more votes than a block certificate.
#[test]
fn two_rules_run_in_one_call() {
    let echoes = [(0, 0, 1), (0, 1, 0), (1, 0, 0)].map(|triple| (triple, Row::AThenB));
    let releases = [(0, 0, 2), (0, 1, 1), (0, 1, 29), (0, 0, 31)].map(|triple| (triple, Row::CThenD));
    for ((f, c, k), row) in echoes.into_iter().chain(releases) {
        let coverage = covered(vec![Settings::new(f, c, k).unwrap()], 7, 60_000);
        assert!(coverage.count(row) > 20, "({f},{c},{k}): {} times {row:?}", coverage.count(row));
    }
}

#[test]
fn the_same_seed_gives_the_same_run() {
    let table = |seed| covered(Settings::all(), seed, 20_000).to_string();
    assert_eq!(table(5), table(5));
    assert_ne!(table(5), table(6));
}

/// The first failure of short runs in rounds with an error built in.
fn search(settings: Settings, fault: &str, calls: u64) -> Result<u64, Failure> {
    let mut faults = Faults::NONE;
    assert!(faults.set(fault));
    let short = Plan { longest: Some(400), style: Style::Rounds, ..plan(vec![settings], faults, 1, calls) };
    short.play(&mut Coverage::default())
}

/// That random runs find nothing means something: with an error built in they find two chains.
#[test]
fn random_runs_find_errors() {
    for fault in [
        "p-from-c-k-2",
        "high-votes-left-out",
        "vote-after-timeout",
        "safe-not-adopted",
        "block-quorum-lower",
        "timeout-quorum-lower",
    ] {
        for settings in [settings::six(), settings::ten()] {
            let failure = search(settings, fault, 10_000_000).expect_err(fault);
            println!("{fault}: {failure:?}");
        }
    }
}

/// The replicas are right, but their hosts resume from older states than the last finished call left.
#[test]
fn random_runs_find_old_states() {
    let runs = plan(vec![settings::six()], Faults::NONE, 1, 10_000_000);
    let short = Plan { longest: Some(400), style: Style::OldStates, ..runs };
    let failure = short.play(&mut Coverage::default()).expect_err("two chains");
    println!("{failure:?}");
}

/// The same for the errors that take longer to find.
#[test]
#[ignore = "longer; run with --ignored"]
fn longer_random_runs_find_all_errors() {
    for fault in Faults::NAMES {
        for settings in [settings::six(), settings::ten()] {
            let failure = search(settings, fault, 100_000_000).expect_err(fault);
            println!("{fault}: {failure:?}");
        }
    }
}
