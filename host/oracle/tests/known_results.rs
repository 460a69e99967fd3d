//! 01, "Known results": settings, safe blocks of five timeout certificates, and the listing's calls.

mod common;

use common::six;
use oracle::{answer, wire, Certificate, Faults, Protocol, Refusal, Replica, Settings, Timeout, View, Vote};

const A: [u8; 32] = [0xA1; 32];
const B: [u8; 32] = [0xB1; 32];

/// 01's table as 02, 2.2 changes it: (2,0,1) "opens with n = 8 and 6, 3, 6, 5, 8. The ring of ten has thresholds 6, 4,
/// 7, 5, 8".
#[test]
fn settings_give_n_and_thresholds() {
    let table = [
        ((1, 1, 0), 6, [4, 2, 4, 4, 6]),
        ((2, 2, 2), 13, [8, 5, 9, 7, 11]),
        ((7, 5, 0), 32, [20, 10, 20, 20, 30]),
        ((2, 0, 1), 8, [6, 3, 6, 5, 8]),
        ((1, 2, 2), 10, [6, 4, 7, 5, 8]),
        ((0, 0, 0), 1, [1, 1, 1, 1, 1]),
    ];
    for ((f, c, k), n, quorums) in table {
        let s = Settings::new(f, c, k).expect("good settings");
        let given = [s.block_quorum(), s.weak_quorum(), s.timeout_quorum(), s.slow_quorum(), s.fast_quorum()];
        assert_eq!((s.n(), given), (n, quorums));
        let opened = Replica::open(f, c, k, n.into(), u64::from(n) - 1, &[0]).expect("good settings");
        assert_eq!((opened.settings(), opened.own()), (s, n as u16 - 1));
    }
}

/// 02, 2.4: "show that it is 01's number for every setting", and 01: "block certificate: (n+f+1)/2 rounded up".
#[test]
fn block_quorum_is_01s_number() {
    for s in Settings::all() {
        assert_eq!(s.block_quorum(), (s.n() + s.f() + 1).div_ceil(2), "{s:?}");
    }
}

fn is_refused(f: u64, c: u64, k: u64, n: u64, own: u64) -> bool {
    match Replica::open(f, c, k, n, own, &[0]) {
        Ok(_) => false,
        Err(refusal) => {
            assert_eq!(refusal, Refusal::Settings);
            true
        }
    }
}

#[test]
fn bad_settings_are_refused_1() {
    for (f, c, k, n, own) in [
        (8, 4, 0, 33, 0), // n over 32
        (0, 0, 32, 33, 0),
        (1, 1, 0, 5, 0), // n isn't 3f+2c+k+1
        (1, 2, 2, 9, 0),
        (1, 2, 2, 11, 0),
        (0, 0, 0, 0, 0),
        (1, 1, 0, 6, 6), // own number ≥ n
        (0, 0, 0, 1, 1),
    ] {
        assert!(is_refused(f, c, k, n, own), "{f} {c} {k} {n} {own}");
    }
}

/// "every k ≥ 0 is taken as long as n is at most 32": all settings near, each opened with every own number.
#[test]
fn opening_takes_every_setting_of_at_most_32_replicas() {
    let mut taken = [0; 11];
    for (f, c, k) in (0..=40).flat_map(|f| (0..=40).flat_map(move |c| (0..=40).map(move |k| (f, c, k)))) {
        for n in 0..=45 {
            let good = n == 3 * f + 2 * c + k + 1 && n <= 32;
            assert_eq!(is_refused(f, c, k, n, 0), !good, "{f} {c} {k} {n}");
            if good {
                taken[f as usize] += 1;
                assert!((1..n).all(|own| !is_refused(f, c, k, n, own)), "{f} {c} {k} {n}");
                assert!([n, n + 1, 1 << 16, 1 << 32, u64::MAX].iter().all(|&own| is_refused(f, c, k, n, own)));
            }
        }
    }
    // For each f the pairs with 2c+k ≤ m = 31−3f: m/2+1 rounded down, times m/2+1 rounded up.
    let by_f: [u64; 11] = [272, 225, 182, 144, 110, 81, 56, 36, 20, 9, 2];
    assert_eq!(taken, by_f);
    assert_eq!(taken.iter().sum::<u64>(), 1137);
}

/// No sum overflows, and no number is cut to fewer bits.
#[test]
fn huge_numbers_are_refused_1() {
    let third = u64::MAX / 3 + 1; // 3 of these are 2 in 64 bits
    for (f, c, k, n) in [
        (third, 0, 0, 3),
        (2 * third, 0, 0, 5),
        (0, 1 << 63, 0, 1),
        (0, u64::MAX, 3, 2),
        (0, 0, u64::MAX, 0),
        (1, 1, u64::MAX - 4, 1),
        (u64::MAX, 1, 0, 6),
        (1, u64::MAX / 2, 0, 6),
        (1, 1, u64::MAX, 6),
        (1 << 32, 1 << 32, 1 << 32, 1),
        (u64::MAX, u64::MAX, u64::MAX, u64::MAX),
    ] {
        assert!(is_refused(f, c, k, n, 0), "{f} {c} {k} {n}");
    }
    for place in 0..5 {
        for high in [1 << 8, 1 << 16, 1 << 32, 1 << 63, u64::MAX - 99] {
            let mut numbers = [1, 2, 2, 10, 9];
            numbers[place] += high;
            let [f, c, k, n, own] = numbers;
            assert!(is_refused(f, c, k, n, own), "{numbers:?}");
        }
    }
    assert!(!is_refused(1, 2, 2, 10, 9));
}

/// Timeouts of view 3 from replicas 0, 1, .. with these high votes of view 3 and the genesis certificate.
fn timeouts(high_votes: &[Option<[u8; 32]>]) -> Vec<Timeout> {
    let high_vote = |name: Option<[u8; 32]>| name.map_or(Vote::NONE, |name| Vote { view: View(3), name });
    let timeout = |(i, &name): (usize, &Option<[u8; 32]>)| Timeout {
        sender: i as u16,
        view: View(3),
        high_vote: high_vote(name),
        certificate: Certificate::GENESIS,
    };
    high_votes.iter().enumerate().map(timeout).collect()
}

fn safe(timeouts: &[Timeout]) -> Certificate {
    let protocol = Protocol::new(Settings::new(1, 1, 0).unwrap(), Faults::NONE);
    let mut record = Vec::new();
    wire::write_timeout_certificate(&mut record, 0, View(3), timeouts);
    protocol.safe_certificate(wire::Timeouts::of(&record))
}

#[test]
fn safe_blocks_of_timeout_certificates() {
    assert_eq!(safe(&timeouts(&[Some(A), Some(A), Some(B), None])), Certificate::weak(View(3), A, 0b0011));
    assert_eq!(safe(&timeouts(&[Some(A), Some(A), Some(B), Some(B)])), Certificate::weak(View(3), A, 0b0011));

    let mut with_block = timeouts(&[Some(A), Some(A), Some(B), None]);
    with_block[3].certificate = Certificate::block(View(3), B, 0b111100);
    assert_eq!(safe(&with_block), Certificate::block(View(3), B, 0b111100));

    with_block[3].certificate.view = View(2);
    assert_eq!(safe(&with_block), Certificate::weak(View(3), A, 0b0011));
}

#[test]
fn carried_goes_before_built_and_lowest_sender_first() {
    let mut equal = timeouts(&[Some(A), Some(A), None, None]);
    equal[2].certificate = Certificate::weak(View(3), A, 0b111000);
    equal[3].certificate = Certificate::weak(View(3), A, 0b000111);
    assert_eq!(safe(&equal), Certificate::weak(View(3), A, 0b111000));
}

#[test]
fn three_timeouts_are_refused_9() {
    let mut replica = six(5);
    let mut record = Vec::new();
    wire::write_timeout_certificate(&mut record, 0, View(3), &timeouts(&[Some(A), Some(A), Some(B)]));
    assert_eq!(replica.record(&record, &mut Vec::new()), Err(Refusal::Certificate));
    record.clear();
    wire::write_timeout_certificate(&mut record, 0, View(3), &timeouts(&[Some(A), Some(A), Some(B), None]));
    assert!(replica.record(&record, &mut Vec::new()).is_ok());
    assert_eq!(replica.counters.view, View(4));
}

#[test]
fn calls_of_the_listing() {
    let mut replica = six(1);
    let mut out = Vec::new();
    assert_eq!(answer(replica.timer(View(2), &mut out)), 8);
    assert_eq!(replica.timer(View(1), &mut out), Ok(112));
    assert_eq!(answer(replica.timer(View(1), &mut out)), 10);
    assert_eq!(answer(replica.propose([1; 32], &mut out)), 15);
    assert_eq!(out.len(), 112);
}
