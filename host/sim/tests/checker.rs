//! The checker itself: it sees every way in which the claim can fail, and keeps to the premises.

use oracle::{wire, Block, Certificate, Faults, Height, Leaders, Name, Protocol, Replica, View, Vote, GENESIS};
use sim::{settings, Cluster, Core, Outcome, Rows, Violation};

const A: Name = [b'A'; 32];
const B: Name = [b'B'; 32];

fn block(name: Name, parent: Name, height: u64) -> Block {
    Block { name, parent, height: Height(height) }
}

#[test]
fn rows_that_begin_each_other_are_one_chain() {
    let (a, b) = (block(A, GENESIS, 1), block(B, A, 2));
    let mut rows = Rows::new(3);
    rows.release(0, A, 1, Some(&a));
    rows.release(1, A, 1, Some(&a));
    rows.release(1, B, 2, Some(&b));
    rows.release(0, B, 2, Some(&b));
    assert_eq!(rows.violation(), None);
    assert!(rows.is_one_chain());
}

#[test]
fn a_wrong_height_is_seen() {
    let mut rows = Rows::new(2);
    rows.release(0, A, 2, Some(&block(A, GENESIS, 2)));
    assert_eq!(rows.violation(), Some(Violation::Height { replica: 0, expected: 1, released: 2 }));
}

#[test]
fn a_wrong_parent_is_seen() {
    let mut rows = Rows::new(2);
    rows.release(0, A, 1, Some(&block(A, B, 1)));
    assert_eq!(rows.violation(), Some(Violation::Parent { replica: 0, height: 1 }));
    let mut rows = Rows::new(2);
    rows.release(0, A, 1, None);
    assert_eq!(rows.violation(), Some(Violation::Parent { replica: 0, height: 1 }));
}

#[test]
fn two_chains_are_seen() {
    let mut rows = Rows::new(3);
    rows.release(0, A, 1, Some(&block(A, GENESIS, 1)));
    rows.release(2, B, 1, Some(&block(B, GENESIS, 1)));
    assert_eq!(rows.violation(), Some(Violation::TwoChains { replica: 2, height: 1 }));
    assert!(!rows.is_one_chain());
}

/// The cluster of six with replica 0 Byzantine.
fn six() -> Cluster<Replica> {
    let settings = settings::six();
    Cluster::open(Faults::NONE, Protocol::new(settings, Faults::NONE), Leaders::in_turn(settings), 1)
}

fn record(write: impl FnOnce(&mut Vec<u8>)) -> Vec<u8> {
    let mut bytes = Vec::new();
    write(&mut bytes);
    bytes
}

fn proposal(block: &Block) -> Vec<u8> {
    let progress = record(|out| wire::write_block_certificate(out, 0, &Certificate::GENESIS));
    record(|out| wire::write_proposal(out, 0, View(1), block, &progress))
}

fn vote(sender: u16, name: Name) -> Vec<u8> {
    record(|out| wire::write_vote(out, sender, Vote { view: View(1), name }))
}

#[test]
fn honest_votes_cannot_be_forged() {
    let mut cluster = six();
    assert_eq!(cluster.record(1, &vote(2, A)), Outcome::Barred);
    assert_eq!(cluster.record(1, &vote(0, A)), Outcome::Accepted); // a Byzantine vote is free
    assert_eq!(cluster.record(2, &proposal(&block(A, GENESIS, 1))), Outcome::Accepted);
    assert_eq!(cluster.record(1, &vote(2, A)), Outcome::Accepted); // now replica 2 has voted so
    assert_eq!(cluster.record(1, &vote(2, A)), Outcome::Refused(10));
}

#[test]
fn honest_signers_cannot_be_forged() {
    let mut cluster = six();
    let certificate =
        |signers| record(|out| wire::write_block_certificate(out, 0, &Certificate::block(View(1), A, signers)));
    assert_eq!(cluster.record(4, &certificate(0b01_1110)), Outcome::Barred);
    for replica in [1, 2, 3] {
        cluster.record(replica, &proposal(&block(A, GENESIS, 1)));
    }
    assert_eq!(cluster.record(4, &certificate(0b01_1110)), Outcome::Barred); // replica 4 hasn't voted
    assert_eq!(cluster.record(4, &certificate(0b00_1110)), Outcome::Refused(9)); // too few, and refused is free
    assert_eq!(cluster.record(4, &certificate(0b00_1111)), Outcome::Accepted);
}

#[test]
fn honest_timeouts_cannot_be_forged() {
    let mut cluster = six();
    let timeout =
        |sender| oracle::Timeout { sender, view: View(1), high_vote: Vote::NONE, certificate: Certificate::GENESIS };
    let four = record(|out| wire::write_timeout_certificate(out, 0, View(1), &[0, 1, 2, 3].map(timeout)));
    assert_eq!(cluster.record(5, &four), Outcome::Barred);
    for replica in [1, 2, 3] {
        assert_eq!(cluster.timer(replica, 1), Outcome::Accepted);
    }
    assert_eq!(cluster.record(5, &four), Outcome::Accepted);
    assert_eq!(cluster.view(5), 2);
}

#[test]
fn a_name_has_one_parent_and_height() {
    let mut cluster = six();
    let kind_8 = |block: &Block| record(|out| wire::write_block(out, 0, block));
    assert_eq!(cluster.record(1, &kind_8(&block(A, GENESIS, 1))), Outcome::Accepted);
    assert_eq!(cluster.record(1, &kind_8(&block(B, A, 2))), Outcome::Accepted);
    assert_eq!(cluster.record(2, &kind_8(&block(B, GENESIS, 1))), Outcome::Barred);
    assert_eq!(cluster.record(1, &kind_8(&block(B, GENESIS, 1))), Outcome::Refused(11));
}

#[test]
fn a_call_that_is_cut_off_leaves_nothing() {
    let mut cluster = six();
    let before = cluster.save(1);
    cluster.cut_off(1, &proposal(&block(A, GENESIS, 1)));
    assert_eq!(*cluster.replica(1), before);
    assert!(cluster.ledger().made(1).votes.is_empty());
    assert_eq!(cluster.record(1, &proposal(&block(A, GENESIS, 1))), Outcome::Accepted);
    assert_eq!((cluster.replica(1).timed(), cluster.replica(1).height()), (0, 0));
}
