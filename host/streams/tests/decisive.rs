//! What the inputs of the call that names the decisive timeout come upon.

use oracle::wire;
use streams::{Decided, DecisiveCall, DecisiveCoverage, DecisiveStream, Kind, Opening, Outcome, Stream};

fn calls(seed: u64, count: usize) -> Vec<DecisiveCall> {
    DecisiveStream::new(seed).take(count).collect()
}

#[test]
fn calls_come_upon_every_answer_and_outcome() {
    let mut coverage = DecisiveCoverage::default();
    for call in (0..2_000).flat_map(|seed| calls(seed, 20)) {
        coverage.count(&call, call.make());
    }
    println!("{coverage}");
    assert_eq!(coverage.calls(), 40_000);
    assert_eq!(coverage.answers(), [0, 1, 3, 4, 5, 6, 7, 8, 9]);
    for answer in coverage.answers() {
        assert!(coverage.of(answer) > 200, "{answer}: {}", coverage.of(answer));
    }
    for outcome in [Outcome::Exact, Outcome::Settled, Outcome::First, Outcome::Later] {
        assert!(coverage.of_outcome(outcome) > 1_000, "{outcome:?}");
    }
    for decided in [Decided::CarriedBlock, Decided::CarriedWeak, Decided::Built] {
        assert!(coverage.of_decided(decided) > 1_000, "{decided:?}");
    }
}

#[test]
fn a_seed_gives_the_same_calls_again() {
    assert_eq!(calls(7, 50), calls(7, 50));
    assert_ne!(calls(7, 50), calls(8, 50));
}

/// From an opening a replica forms a timeout certificate as soon as it has n−f−c timeouts, so that none of them is decisive.
/// Those with more were handed in, by themselves or in a proposal.
#[test]
fn a_formed_certificate_has_just_enough_timeouts() {
    let mut formed = 0;
    let mut out = Vec::new();
    for seed in 0..200 {
        let mut replica = Opening::seeded_led(seed).open();
        let mut stream = Stream::new(seed);
        for _ in 0..500 {
            let call = stream.next(&replica);
            out.clear();
            let _ = call.make(&mut replica, &mut out);
            if matches!(Kind::of(&call), Kind::TimeoutCertificate | Kind::Proposal) {
                continue;
            }
            for record in wire::records(&out).filter(|record| wire::kind_of(record) == wire::kind::TIMEOUT_CERTIFICATE)
            {
                assert_eq!(wire::Timeouts::of(record).count(), replica.settings().timeout_quorum() as usize);
                formed += 1;
            }
        }
    }
    assert!(formed > 500, "{formed} certificates");
}
