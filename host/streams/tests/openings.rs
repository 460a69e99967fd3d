//! Openings have every settings that 02, 2.2 takes, and refused ones break each rule.

use std::collections::BTreeSet;

use oracle::{Refusal, Replica};
use streams::{Opening, Random};

fn settings(opening: &Opening) -> [u64; 3] {
    [opening.f, opening.c, opening.k]
}

/// The tests of the oracle count 1,137 settings.
#[test]
fn every_settings_comes_up() {
    let mut random = Random::new(5);
    let drawn: BTreeSet<_> = (0..200_000).map(|_| settings(&Opening::any(&mut random))).collect();
    assert_eq!(drawn.len(), 1137);
}

/// Among few seeds there are small clusters, f = 0, high k, and 02's ring of ten.
#[test]
fn seeds_bring_up_the_settings_that_matter() {
    let openings: Vec<Opening> = (0..500).map(Opening::seeded_led).collect();
    let count = |wanted: fn(&Opening) -> bool| openings.iter().filter(|opening| wanted(opening)).count();
    for (times, least) in [
        (count(|opening| opening.n == 1), 15),
        (count(|opening| (2..5).contains(&opening.n)), 50),
        (count(|opening| opening.f == 0), 100),
        (count(|opening| opening.k > 20), 10),
        (count(|opening| settings(opening) == [1, 2, 2]), 10),
        (count(|opening| opening.n == 32), 20),
    ] {
        assert!(times >= least, "{times} of {}, at least {least}", openings.len());
    }
    assert!(openings.iter().all(|opening| opening.open().own() < opening.n as u16));
}

/// Numbers as wide as any caller has: all are refused by 1, and by each rule.
#[test]
fn spoilt_numbers_are_refused() {
    let mut random = Random::new(6);
    for bits in [16, 32, 64] {
        let mut broken = [0; 4];
        for _ in 0..2_000 {
            let opening = Opening::any(&mut random);
            let numbers = opening.spoilt_numbers(bits, &mut random);
            let [f, c, k, n, own] = numbers;
            let refused = Replica::open(f, c, k, n, own, opening.leaders.list()).err();
            assert_eq!(refused, Some(Refusal::Settings), "{numbers:?}");
            assert!(numbers.iter().all(|number| number >> (bits - 1) <= 1), "{numbers:?}");
            broken[rule(numbers, bits)] += 1;
        }
        assert!(broken.iter().all(|&times| times > 100), "{broken:?}");
    }
}

/// Which rule is broken: n over 32, own number, n that is the sum only where it wraps round, n that isn't.
fn rule([f, c, k, n, own]: [u64; 5], bits: u32) -> usize {
    let sum = 3 * u128::from(f) + 2 * u128::from(c) + u128::from(k) + 1;
    match u128::from(n) {
        right if right == sum && n > 32 => 0,
        right if right == sum => {
            assert!(own >= n);
            1
        }
        other if sum % (1 << bits) == other => 2,
        _ => 3,
    }
}
