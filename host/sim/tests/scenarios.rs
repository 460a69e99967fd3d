//! Scripted runs: two chains with an error, one chain without it.

use std::collections::BTreeSet;

use oracle::{Faults, Protocol, Replica, Settings};
use sim::scenarios::{self, Ends};
use sim::{settings, Script, Violation};

fn play_resume(old_state: bool) -> Script<Replica> {
    let mut script = Script::open(Faults::NONE, Protocol::new(settings::six(), Faults::NONE), &[0]);
    scenarios::resume(&mut script, old_state);
    script
}

fn show(script: &Script<Replica>) -> String {
    script.trace().join("\n")
}

fn assert_ends(script: &Script<Replica>, ends: Ends) {
    for (replica, row) in ends {
        assert_eq!(script.row(replica), row, "replica {replica}\n{}", show(script));
    }
}

/// Both ways of looking: release by release, and all pairs of rows at the end.
fn assert_two_chains(script: &Script<Replica>) {
    let violation = script.cluster.violation();
    assert!(matches!(violation, Some(Violation::TwoChains { height: 1, .. })), "{violation:?}\n{}", show(script));
    assert!(!script.cluster.rows().is_one_chain());
}

fn assert_one_chain(script: &Script<Replica>) {
    assert_eq!(script.cluster.violation(), None, "\n{}", show(script));
    assert!(script.cluster.rows().is_one_chain());
}

/// One chain now, and every honest replica comes to it once the network is good again.
fn assert_one_chain_and_goes_on(script: &mut Script<Replica>) {
    assert_one_chain(script);
    assert!(script.heal(), "the cluster stands still\n{}", show(script));
    assert_one_chain(script);
}

#[test]
fn each_error_gives_two_chains() {
    for scenario in scenarios::all::<Replica>() {
        let mut faults = Faults::NONE;
        assert!(faults.set(scenario.fault));
        println!("{}", scenario.name);
        let script = scenarios::play(&scenario, faults, faults);
        assert_two_chains(&script);
        assert_ends(&script, scenario.wrong);
    }
}

#[test]
fn without_the_error_there_is_one_chain() {
    for scenario in scenarios::all::<Replica>() {
        println!("{}", scenario.name);
        let mut script = scenarios::play(&scenario, Faults::NONE, Faults::NONE);
        assert_ends(&script, scenario.right);
        assert_one_chain_and_goes_on(&mut script);
    }
}

/// The errors that have a scenario with these settings.
fn faults_in(settings: Settings) -> BTreeSet<&'static str> {
    let all = scenarios::all::<Replica>().into_iter();
    all.filter(|scenario| scenario.settings == settings).map(|scenario| scenario.fault).collect()
}

/// In the cluster of six; in the cluster of ten those that are about counting.
#[test]
fn every_error_has_its_scenario() {
    assert_eq!(faults_in(settings::six()), BTreeSet::from(Faults::NAMES));
    let counts = |name: &&str| *name == "p-from-c-k-2" || name.ends_with("-quorum-lower");
    assert_eq!(faults_in(settings::ten()), Faults::NAMES.into_iter().filter(counts).collect());
}

#[test]
fn resuming_from_an_old_state_gives_two_chains() {
    let script = play_resume(true);
    assert_two_chains(&script);
    assert_ends(&script, [(1, "A"), (4, "B")]);
}

#[test]
fn resuming_from_the_last_finished_call_gives_one_chain() {
    let mut script = play_resume(false);
    assert_ends(&script, [(1, "A"), (4, "")]);
    assert_one_chain_and_goes_on(&mut script);
}
