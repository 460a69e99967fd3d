//! The comparison notices errors: with each of the oracle's eleven and each misreading of contents, one at a time, a difference
//! is found, few calls show it, and what is printed replays it.

use compare::{compare_part, replay, Kind, Mismatch};
use oracle::{Faults, Misreading};

/// The calls that are compared at most, and that may be left to show the difference: a release by one vote too few takes 31
/// votes where n is 32 and p is 0. Where the first difference is far up in a long chain, as many blocks are left: so the
/// search begins at several seeds, and the fewest calls count.
const CALLS: u64 = 60_000;
const FEW: usize = 36;
const SEEDS: [u64; 3] = [0, 1, 2];

fn notices(kind: Kind, what: &str, faults: Faults) {
    let found = SEEDS.map(|first| compare_part(kind, first, CALLS, faults).expect_err("a difference"));
    let mismatch = found.into_iter().min_by_key(|mismatch| mismatch.steps.len()).expect("as many as seeds");
    let steps = mismatch.steps.len();
    println!("{what}, {kind:?}: {steps} calls, seed {}: {}", mismatch.run.seed, mismatch.difference);
    assert!(steps <= FEW);
    replays(&mismatch, faults);
}

fn notices_each_fault(kind: Kind) {
    for name in Faults::NAMES {
        let mut faults = Faults::NONE;
        assert!(faults.set(name));
        notices(kind, name, faults);
    }
}

fn notices_each_misreading(kind: Kind) {
    for misreading in Misreading::ALL {
        notices(kind, &format!("{misreading:?}"), Faults { misreading: Some(misreading), ..Faults::NONE });
    }
}

fn replays(mismatch: &Mismatch, faults: Faults) {
    let printed = mismatch.to_string();
    let again = replay(&printed, faults).expect("lines that replay").expect("the difference again");
    assert_eq!(again.to_string(), printed);
    assert!(replay(&printed, Faults::NONE).expect("lines that replay").is_none(), "it is the fault that differs");
}

#[test]
fn each_fault_is_noticed_from_garbage() {
    notices_each_fault(Kind::Garbage);
}

#[test]
fn each_fault_is_noticed_from_openings() {
    notices_each_fault(Kind::Opened);
}

#[test]
fn each_misreading_is_noticed_from_garbage() {
    notices_each_misreading(Kind::Garbage);
}

#[test]
fn each_misreading_is_noticed_from_openings() {
    notices_each_misreading(Kind::Opened);
}
