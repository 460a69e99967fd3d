//! A run with damaged records between good ones. The good ones lead to a release all the same.

use oracle::GENESIS;

use crate::make::*;
use crate::{call, StoredRun, Told};

pub fn run() -> StoredRun {
    let about =
        "replica 3: records damaged in many ways between good ones, which go on to a release; at the end a record \
                 that is cut short";
    StoredRun::told("damaged", about, SIX, 3, calls())
}

fn calls() -> Vec<Told> {
    let shown = proposal(0, 1, block(A, GENESIS, 1), &genesis_certificate(0));
    vec![
        call(5, "a proposal whose inner certificate has another sender", sent_by_inner(shown.clone(), 2)),
        call(4, "a proposal with a block in place of its certificate", with_inner_kind(shown.clone(), 8)),
        call(0, "the proposal as it was sent", shown.clone()),
        call(10, "the same once more", shown),
        call(4, "a vote with a bit flipped in its kind", with(vote(1, 1, A), 4, &[0x21])),
        call(6, "a vote with its sender overwritten", sent_by(vote(1, 1, A), 200)),
        call(8, "a vote with a bit flipped in its view", with(vote(1, 1, A), 13, &[1])),
        call(5, "a vote with its name overwritten by zeros", with(vote(1, 1, A), 16, &[0; 32])),
        call(0, "the vote as it was sent", vote(1, 1, A)),
        call(0, "a vote with a bit flipped in its name: only its signature tells", with(vote(5, 1, A), 47, b"C")),
        call(11, "the vote as it was sent comes too late", vote(5, 1, A)),
        call(5, "a certificate with a signer outside the cluster", certificate(2, 1, A, FOUR | 1 << 40)),
        call(9, "a certificate that lost a signer", certificate(2, 1, A, FOUR >> 1)),
        call(5, "a timeout with nonzero padding", with(timeout(4, 1), 63, &[1])),
        call(4, "a timeout with a certificate of kind 7", with(timeout(4, 1), 56, &[7])),
        call(5, "a timeout whose high vote has a view and no name", with(timeout(4, 1), 16, &[1])),
        call(5, "a timeout certificate with two senders swapped", timeouts(0, 1, &[0, 2, 1, 4])),
        call(5, "a timeout certificate with a timeout twice", timeouts(0, 1, &[0, 1, 1, 4])),
        call(5, "a timeout certificate with one timeout of view 3", with(timeouts(0, 1, &[0, 1, 2, 4]), 32, &[3])),
        call(4, "a timeout certificate with a vote among its timeouts", with(timeouts(0, 1, &[0, 1, 2, 4]), 28, &[1])),
        call(9, "a timeout certificate with three timeouts", timeouts(0, 1, &[0, 1, 4])),
        call(4, "a header alone, of kind 0", vec![8, 0, 0, 0, 0, 0, 0, 0]),
        call(4, "a second opening", opening(SIX, 3)),
        call(6, "a timer with a sender", sent_by(timer(1), 1)),
        call(6, "a propose with a sender", sent_by(propose(B), 1)),
        call(13, "a block with its height overwritten", block_record(0, B, GENESIS, 1 << 32)),
        call(0, "the fourth vote but one", vote(0, 1, A)),
        call(0, "the fourth vote: a certificate and a commit", vote(2, 1, A)),
        call(0, "a commit", commit(0, 1, A)),
        call(5, "a commit with its name overwritten by zeros", with(commit(1, 1, A), 16, &[0; 32])),
        call(0, "the commit as it was sent", commit(1, 1, A)),
        call(0, "the fourth commit: A is released", commit(2, 1, A)),
        call(3, "30 bytes of a commit: the run stops", commit(4, 1, A)[..30].to_vec()),
    ]
}

/// A proposal with another sender in its inner certificate.
fn sent_by_inner(record: Vec<u8>, sender: u16) -> Vec<u8> {
    with(record, 88 + 6, &sender.to_le_bytes())
}

fn with_inner_kind(record: Vec<u8>, kind: u16) -> Vec<u8> {
    with(record, 88 + 4, &kind.to_le_bytes())
}
