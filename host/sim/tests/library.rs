//! The simulated cluster over the proved library: one chain, and call for call the same runs as over the oracle.

use oracle::{Faults, Protocol, Replica};
use sim::{scenarios, settings, Core, Coverage, Family, Names, Plan, Proved, Script, Style};

/// Plays runs with the settings of a family over this replica, all on one chain.
fn play<C: Core>(options: C::Options, family: Family, coverage: &mut Coverage) -> u64 {
    let plan: Plan<C> = Plan {
        options,
        faults: Faults::NONE,
        settings: family.settings(),
        leaders: None,
        seed: 77,
        calls: 250_000,
        longest: None,
        style: Style::Both,
        names: Names::Both,
    };
    plan.play(coverage).expect("one chain")
}

#[test]
fn random_runs_over_the_library_are_those_over_the_oracle() {
    let (mut library, mut other) = (Coverage::default(), Coverage::default());
    let mut calls = 0;
    for family in Family::ALL {
        calls += play::<Proved>((), family, &mut library);
        play::<Replica>(Faults::NONE, family, &mut other);
    }
    println!("{library}");
    assert!(calls >= 1_000_000);
    assert_eq!(library.to_string(), other.to_string());
}

/// The stories of the errors, told to the library: nothing goes wrong, and the cluster goes on.
#[test]
fn scripted_runs_over_the_library_are_those_over_the_oracle() {
    let stories = scenarios::all::<Proved>().into_iter().zip(scenarios::all::<Replica>());
    for (library, other) in stories {
        let mut library = scenarios::play(&library, (), Faults::NONE);
        let mut other = scenarios::play(&other, Faults::NONE, Faults::NONE);
        assert!(library.heal() && other.heal(), "the cluster stands still");
        assert_eq!(library.trace(), other.trace());
        assert!(library.cluster.rows().is_one_chain());
    }
}

/// A host that resumes from an older save breaks its duty: with the library, too, two chains follow.
#[test]
fn resuming_from_an_old_save_gives_two_chains() {
    for (old_state, one_chain) in [(true, false), (false, true)] {
        let mut script: Script<Proved> = Script::open((), Protocol::new(settings::six(), Faults::NONE), &[0]);
        scenarios::resume(&mut script, old_state);
        assert_eq!(script.cluster.rows().is_one_chain(), one_chain);
    }
}
