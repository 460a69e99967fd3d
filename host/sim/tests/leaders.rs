//! Clusters that were opened with a leader list other than 0 to n−1, over the oracle and over the proved library.

use oracle::{Faults, Leaders, Protocol, Replica};
use sim::settings::six;
use sim::{Core, Coverage, Names, Plan, Proved, Row, Script, Style};

fn leaders(list: &[u8]) -> Leaders {
    Leaders::new(list, six()).expect("a list that is taken")
}

/// Random runs over a list: one chain, and blocks are released.
fn play<C: Core>(options: C::Options, list: &[u8]) -> Coverage {
    let mut coverage = Coverage::default();
    let plan: Plan<C> = Plan {
        options,
        faults: Faults::NONE,
        settings: vec![six()],
        leaders: Some(leaders(list)),
        seed: 5,
        calls: 60_000,
        longest: None,
        style: Style::Both,
        names: Names::Both,
    };
    plan.play(&mut coverage).expect("one chain");
    assert!(coverage.count(Row::RuleD) > 300, "{list:?}: {} walks", coverage.count(Row::RuleD));
    coverage
}

#[test]
fn random_runs_over_lists_are_one_chain() {
    let long: Vec<u8> = (0..64).map(|entry| [3, 3, 1, 4][entry % 4]).collect();
    for list in [&[1, 0, 1, 1, 3][..], &[0, 0, 0, 0, 0, 1], &[2], &[5, 4, 3, 2, 1, 0], &long] {
        let library = play::<Proved>((), list);
        let other = play::<Replica>(Faults::NONE, list);
        assert_eq!(library.to_string(), other.to_string(), "{list:?}");
    }
}

/// Once the network is good, blocks are released wherever an honest replica leads at times, though a silent Byzantine one
/// leads most views; where it leads all, none is.
#[test]
fn clusters_go_on_where_an_honest_replica_leads() {
    for (list, byzantine, goes_on) in
        [(&[1, 0, 1, 1, 3][..], &[][..], true), (&[4], &[0], true), (&[0, 0, 0, 1], &[0], true), (&[0], &[0], false)]
    {
        assert_eq!(heals::<Replica>(Faults::NONE, list, byzantine), goes_on, "{list:?}");
        assert_eq!(heals::<Proved>((), list, byzantine), goes_on, "{list:?}");
    }
}

fn heals<C: Core>(options: C::Options, list: &[u8], byzantine: &[usize]) -> bool {
    let mut script: Script<C> = Script::open_led(options, Protocol::new(six(), Faults::NONE), leaders(list), byzantine);
    let healed = script.heal();
    assert!(script.cluster.rows().is_one_chain());
    healed
}
