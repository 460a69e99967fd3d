//! 02, 2.4 on the library: in every cluster a block certificate takes 01's number of votes, "(n+f+1)/2 rounded up".

use oracle::wire;
use replica::{Certificate, Content, Name, Refusal, Replica, Settings, View};

const NAME: Name = Name { bytes: [7; 32] };

/// Every setting that opens, with 01's number of votes for a block certificate.
fn clusters() -> Vec<(Settings, u16)> {
    let triples = (0..=10).flat_map(|f| (0..=15).flat_map(move |c| (0..=31).map(move |k| (f, c, k))));
    let settings = triples.map(|(f, c, k)| Settings { f, c, k, n: 3 * f + 2 * c + k + 1 });
    let clusters: Vec<_> = settings.filter(|s| s.n <= 32).map(|s| (s, (s.n + s.f + 1).div_ceil(2) as u16)).collect();
    assert_eq!(clusters.len(), 1137);
    clusters
}

fn open(settings: Settings) -> Replica {
    Replica::open(settings, 0, &[0]).expect("settings that are taken")
}

fn certificate(signers: u64) -> Certificate {
    Certificate { view: View(1), name: NAME, signers }
}

fn certificate_record(signers: u64) -> Vec<u8> {
    let mut record = Vec::new();
    let certificate = oracle::Certificate::block(oracle::View(1), NAME.bytes, signers);
    wire::write_block_certificate(&mut record, 0, &certificate);
    record
}

fn vote_record(sender: u16) -> Vec<u8> {
    let mut record = Vec::new();
    wire::write_vote(&mut record, sender, oracle::Vote { view: oracle::View(1), name: NAME.bytes });
    record
}

/// The block certificates that it writes when this replica's vote comes in.
fn certificates_written(replica: &mut Replica, voter: u16) -> Vec<Certificate> {
    let output = replica.record(&vote_record(voter)).expect("a vote in its window").unsaved();
    let certificate = |content| match content {
        Content::BlockCertificate(certificate) => Some(certificate),
        _ => None,
    };
    output.records().filter_map(|record| certificate(record.content)).collect()
}

/// The signer set of so many replicas, number 0 first.
fn first(count: u16) -> u64 {
    (1 << count) - 1
}

#[test]
fn one_signer_fewer_is_refused_by_9() {
    for (settings, needed) in clusters() {
        let mut replica = open(settings);
        let refused = replica.record(&certificate_record(first(needed - 1))).err();
        assert_eq!(refused, Some(Refusal::Certificate), "{settings:?}");
        assert!(replica.record(&certificate_record(first(needed))).is_ok(), "{settings:?}");
        assert_eq!((replica.lock(), replica.view()), (certificate(first(needed)), View(2)), "{settings:?}");
    }
}

/// By votes of others: the replica itself, number 0, has seen no proposal and votes for nothing.
#[test]
fn the_vote_that_completes_it_writes_it() {
    let enough_others: Vec<_> = clusters().into_iter().filter(|(s, needed)| u64::from(*needed) < s.n).collect();
    assert_eq!(enough_others.len(), 1135, "all but (0, 0, 0) and (0, 0, 1)");
    for (settings, needed) in enough_others {
        let mut replica = open(settings);
        for voter in 1..needed {
            assert_eq!(certificates_written(&mut replica, voter), [], "{settings:?}");
        }
        assert_eq!(certificates_written(&mut replica, needed), [certificate(first(needed) << 1)], "{settings:?}");
    }
}

/// Whether a function, or one that it calls, has a branch or a loop in what the compiler takes in.
fn branches(code: &str, function: &str) -> bool {
    let (_, behind) = code.split_once(&format!("[\"{function}\",{{\"lifetimes\":")).expect(function);
    let body = behind.split("\",{\"lifetimes\":").next().expect("what stands before the next one");
    let mut called = body.split("{\"Fn\":[\"").skip(1).filter_map(|rest| rest.split('"').next());
    ["{\"If\":", "\"Loop\"", "{\"Switch\":", "{\"Select\":"].iter().any(|word| body.contains(word))
        || called.any(|called| branches(code, called))
}

/// 02, 2.4: "without a branch". A proof can't tell, since a branch for odd sums would give the same number.
#[test]
fn no_quorum_is_computed_by_a_branch() {
    let built = concat!(env!("CARGO_MANIFEST_DIR"), "/../../crates/settings/out/rlib/settings.rlib/toolchain/mir.json");
    let code = std::fs::read_to_string(built).expect("what `rt ci` and `tools/library` leave of `settings`");
    assert!(branches(&code, "settings::has_from") && branches(&code, "settings::bad_leaders"));
    for function in ["n", "p", "block_quorum", "weak_quorum", "timeout_quorum", "slow_quorum", "fast_quorum"] {
        assert!(!branches(&code, &format!("settings::Settings::{function}")), "{function}");
    }
}
