//! A real cluster on this machine. A run goes on until every live row has its releases; the deadline is for one that
//! stands still.

use std::collections::HashSet;
use std::path::PathBuf;
use std::time::Duration;

use cluster::host::{Breach, Point};
use cluster::rows::Violation;
use cluster::supervisor::{self, Plan, Summary};
use cluster::N;

fn plan(seed: u64, faults: bool, releases: usize) -> Plan {
    let binary = PathBuf::from(env!("CARGO_BIN_EXE_cluster"));
    Plan { binary, seed, faults, releases, deadline: Duration::from_secs(60), sync: false, breach: None }
}

fn run(seed: u64, faults: bool, releases: usize) -> Summary {
    let summary = supervisor::run(&plan(seed, faults, releases)).unwrap_or_else(|failure| panic!("{failure}"));
    println!("{summary}\n");
    assert!(!summary.folder.exists(), "the folder is left");
    assert!(summary.promises > 0);
    summary
}

#[test]
fn all_honest() {
    let summary = run(1, false, 10);
    assert_eq!(summary.standings.len(), usize::from(N));
    assert!(summary.standings.iter().all(|standing| standing.releases >= 10), "{summary}");
    let counts = &summary.counts;
    assert_eq!([counts.unsigned, counts.foreign, counts.without_contents, counts.no_frame, counts.unbacked], [0; 5]);
    assert_eq!(counts.refused[16..], [0; 2], "honest hosts hand on the contents that a name is made of");
}

/// One Byzantine, one stopped for good, one killed at each point of a call and at other times.
#[test]
fn one_byzantine_one_stopped_one_restarted() {
    let summary = run(7, true, 25);
    let roles = summary.roles.expect("somebody fails");
    assert_eq!(summary.standings.len(), usize::from(N) - 1);
    let mut live = summary.standings.iter().filter(|standing| standing.replica != roles.stopped);
    assert!(live.all(|standing| standing.releases >= 25), "{summary}");
    for point in Point::ALL {
        assert!(summary.kills.iter().any(|kill| kill.point == Some(point)), "{point:?}");
    }
    let counts = &summary.counts;
    assert_eq!(counts.unbacked, 0);
    // The Byzantine process did its work: it was refused by the replicas (votes for two names, garbage, contents that are
    // too long or that a name isn't made of) and by their hosts.
    for number in [3, 11, 16, 17] {
        assert!(counts.refused[number] > 0, "refusal {number}\n{summary}");
    }
    assert!(counts.unsigned > 0 && counts.no_frame > 0, "{summary}");
}

/// Another seed fails others.
#[test]
fn other_seeds_fail_others() {
    let roles: Vec<_> = (20..23).map(|seed| run(seed, true, 8).roles.expect("somebody fails")).collect();
    let failing: HashSet<u16> =
        roles.iter().flat_map(|roles| [roles.byzantine, roles.stopped, roles.restarted]).collect();
    assert!(failing.len() > 3, "{roles:?}");
}

/// The checks notice a host that doesn't keep to its duties. A kill doesn't always hit where it shows, so there are
/// some tries.
#[test]
fn breaches_are_found() {
    for breach in Breach::ALL {
        let violation = |seed| {
            let failure = supervisor::run(&Plan { breach: Some(breach), ..plan(seed, true, 8) }).err()?;
            failure.downcast_ref::<Violation>().copied()
        };
        let found = (40..60).find_map(violation);
        let is_it = |found| matches!(found, Violation::Unsaved { .. } | Violation::SignedTwice { .. });
        assert!(found.is_some_and(is_it), "{breach:?}: {found:?}");
    }
}
