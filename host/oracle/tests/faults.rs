//! Each built-in error does what it says, and nothing without its flag.

mod common;

use common::*;
use oracle::{wire, Certificate, Faults, Protocol, Quorums, Replica, Settings, Timeout, View, Vote, GENESIS};

fn faults(name: &str) -> Faults {
    let mut faults = Faults::NONE;
    assert!(faults.set(name));
    faults
}

fn protocol(faults: Faults) -> Protocol {
    Protocol::new(Settings::new(1, 1, 0).unwrap(), faults)
}

fn six_with(own: u64, faults: Faults) -> Replica {
    six(own).with_faults(faults)
}

#[test]
fn every_name_is_a_flag_of_its_own() {
    let all: Vec<Faults> = Faults::NAMES.iter().map(|name| faults(name)).collect();
    for (i, one) in all.iter().enumerate() {
        assert_ne!(*one, Faults::NONE);
        assert!(all[..i].iter().all(|other| other != one));
    }
    assert!(!Faults::default().set("trace"));
    assert_eq!(Faults::NONE, Faults::default());
}

#[test]
fn quorums() {
    let right = Quorums { block: 4, weak: 2, timeout: 4, slow: 4, fast: 6 };
    let table = [
        ("p-from-c-k-2", Quorums { weak: 3, fast: 5, ..right }),
        ("block-quorum-lower", Quorums { block: 3, ..right }),
        ("weak-quorum-lower", Quorums { weak: 1, ..right }),
        ("timeout-quorum-lower", Quorums { timeout: 3, ..right }),
        ("slow-quorum-lower", Quorums { slow: 3, ..right }),
        ("fast-quorum-lower", Quorums { fast: 5, ..right }),
    ];
    assert_eq!(protocol(Faults::NONE).quorums, right);
    for (name, quorums) in table {
        assert_eq!(protocol(faults(name)).quorums, quorums, "{name}");
    }
}

/// In a cluster of one every quorum is 1, and no fault makes it 0.
#[test]
fn no_quorum_is_0() {
    let one = Settings::new(0, 0, 0).unwrap();
    let right = Quorums { block: 1, weak: 1, timeout: 1, slow: 1, fast: 1 };
    assert_eq!(Quorums::new(one, Faults::NONE), right);
    let mut all = Faults::NONE;
    for name in Faults::NAMES {
        let weak = if name == "p-from-c-k-2" { 2 } else { 1 };
        assert_eq!(Quorums::new(one, faults(name)), Quorums { weak, ..right }, "{name}");
        assert!(all.set(name));
    }
    assert_eq!(Quorums::new(one, all), right);
}

/// Two high votes for A and a block certificate for B, all of view 3.
fn safe(faults: Faults, with_certificate: bool) -> Certificate {
    let mut timeouts = [0, 1, 2, 3].map(|sender| timeout(sender, 3));
    for timeout in &mut timeouts[..2] {
        timeout.high_vote = Vote { view: View(3), name: name(0xA) };
    }
    if with_certificate {
        timeouts[3].certificate = Certificate::block(View(3), name(0xB), FOUR);
    }
    let record = timeouts_record(0, 3, &timeouts);
    protocol(faults).safe_certificate(wire::Timeouts::of(&record))
}

#[test]
fn weak_over_block() {
    let (block, weak) = (Certificate::block(View(3), name(0xB), FOUR), Certificate::weak(View(3), name(0xA), 0b11));
    assert_eq!(safe(Faults::NONE, true), block);
    assert_eq!(safe(faults("weak-over-block"), true), weak);
    let carried = |faults| {
        let mut replica = six_with(0, faults);
        replica.counters.view = View(4);
        replica.counters.lock = block;
        replica.counters.best_weak = weak;
        replica.highest_certificate()
    };
    assert_eq!(carried(Faults::NONE), block);
    assert_eq!(carried(faults("weak-over-block")), weak);
}

#[test]
fn high_votes_left_out() {
    assert_eq!(safe(Faults::NONE, false), Certificate::weak(View(3), name(0xA), 0b11));
    assert_eq!(safe(faults("high-votes-left-out"), false), Certificate::GENESIS);
}

#[test]
fn votes_and_commits_after_a_timeout() {
    let proposal = proposal_record(1, 2, &block(1, GENESIS, 1), &certificate_record(1, 1, GENESIS, FOUR));
    let certificate = certificate_record(3, 2, name(1), FOUR);
    let kinds_with = |faults| {
        let mut replica = six_with(0, faults);
        accept(&mut replica, &[certificate_record(1, 1, GENESIS, FOUR)]);
        replica.timer(View(2), &mut Vec::new()).unwrap();
        let voted = kinds(&accept(&mut replica, std::slice::from_ref(&proposal)));
        (voted, kinds(&accept(&mut replica, std::slice::from_ref(&certificate))))
    };
    assert_eq!(kinds_with(Faults::NONE), (vec![], vec![3]));
    assert_eq!(kinds_with(faults("vote-after-timeout")), (vec![1], vec![3]));
    assert_eq!(kinds_with(faults("commit-after-timeout")), (vec![], vec![3, 2]));
}

#[test]
fn safe_not_adopted() {
    let carrier = Timeout { certificate: Certificate::weak(View(1), GENESIS, 0b11), ..timeout(3, 1) };
    let timeouts = [timeout(0, 1), timeout(1, 1), timeout(2, 1), carrier];
    let on_timeouts = proposal_record(1, 2, &block(1, GENESIS, 1), &timeouts_record(1, 1, &timeouts));
    let on_block = proposal_record(1, 2, &block(1, GENESIS, 1), &certificate_record(1, 1, GENESIS, FOUR));
    let adopted = |proposal: &Vec<u8>, faults| {
        let mut replica = six_with(0, faults);
        let out = accept(&mut replica, std::slice::from_ref(proposal));
        assert_eq!(kinds(&out).last(), Some(&1)); // it votes
        (replica.counters.lock.view.0, replica.counters.best_weak.view.0)
    };
    assert_eq!((adopted(&on_timeouts, Faults::NONE), adopted(&on_block, Faults::NONE)), ((0, 1), (1, 0)));
    let fault = faults("safe-not-adopted");
    assert_eq!((adopted(&on_timeouts, fault), adopted(&on_block, fault)), ((0, 0), (0, 0)));
}
