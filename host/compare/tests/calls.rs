//! A million calls on library and oracle. More with `COMPARE_CALLS=N`, other seeds with `COMPARE_SEED=S`.

use compare::{compare_part, Kind, Tally};
use oracle::Faults;
use streams::{ContentsCase, Kind as Call, Path, Row};

/// What 02, 2.2 added: settings that 01's bound kept out, a cluster of one among them, and rules that run in one call there.
const WITH_EVERY_K: [Path; 6] = [
    Path::NoByzantine,
    Path::AboveBound,
    Path::DecidedAlone,
    Path::TimedOutAlone,
    Path::EchoAndCertificate,
    Path::CertificateAndFastRelease,
];

fn number(variable: &str, otherwise: u64) -> u64 {
    std::env::var(variable).map_or(otherwise, |text| text.parse().expect("a number"))
}

/// Half of the calls, in runs of one kind.
fn compare_half(kind: Kind) -> Tally {
    let first = number("COMPARE_SEED", 1);
    let calls = number("COMPARE_CALLS", 1_100_000) / 2;
    println!("{kind:?}, seeds from {first} on");
    let tally = compare_part(kind, first, calls, Faults::NONE).unwrap_or_else(|mismatch| panic!("{mismatch}"));
    println!("{tally}");
    assert!(tally.compared() >= calls);
    assert!(tally.accepted_percent() >= 30);
    assert_eq!(tally.unlisted(), [], "pairs that the papers don't have");
    for path in WITH_EVERY_K {
        assert!(tally.calls.of_path(path) > 100, "{path:?}: {}", tally.calls.of_path(path));
    }
    assert!(tally.regions_before_length > 100, "contents too long, and yet refused by 2");
    assert!(tally.openings.iter().all(|&times| times > 0), "openings accepted, refused by 1 and by 2");
    assert!(tally.numbers.iter().all(|&times| times > 0), "n over 32, own numbers, sums that wrap round, other n");
    assert!(tally.lists.iter().all(|&times| times > 0), "leader lists that are empty, too long, or have other numbers");
    tally
}

/// Openings over random bytes and long streams. The pairs missing take a held block of height 2^62, with contents or
/// without, and the one path a list that opening refuses; garbage has all.
#[test]
fn library_and_oracle_agree_from_openings() {
    let tally = compare_half(Kind::Opened);
    assert_eq!(tally.missing(), [(Row::Plain(Call::Propose), 13), (Row::With(Call::Propose), 13)]);
    assert_eq!(tally.missing_cases(), [ContentsCase { kind: Call::Propose, right: false, plain: 13 }]);
    assert_eq!(tally.missing_paths(), [Path::LedByNobody]);
}

/// Garbage counters, memory and store: each pair of the papers comes up, 2 for every kind of call.
#[test]
fn library_and_oracle_agree_from_garbage() {
    let tally = compare_half(Kind::Garbage);
    assert_eq!(tally.missing(), []);
    assert_eq!(tally.missing_cases(), []);
    assert_eq!(tally.missing_paths(), []);
}
