//! The cluster of one: f = 0, c = 0, k = 0. Every quorum is 1, so a proposal is released in its own call, and a clock that
//! runs out ends the view in its own call.

use crate::make::*;
use crate::{call, StoredRun, Told};

pub fn run() -> StoredRun {
    let about = "the only replica: each proposal is released and each timer ends the view in one call; what seems to come from \
                 others is refused";
    let told = [proposals_and_timers(), refused(), blocks()];
    StoredRun::told("one-replica", about, ONE, 0, told.into_iter().flatten().collect())
}

fn proposals_and_timers() -> Vec<Told> {
    vec![
        call(0, "propose A: voted for, certified, committed and released", propose(A)),
        call(11, "propose A again, which is held", propose(A)),
        call(0, "propose B on A", propose(B)),
        call(0, "the timer of view 3: a timeout and a timeout certificate", timer(3)),
        call(7, "the timer of view 3, in view 4", timer(3)),
        call(8, "the timer of view 5, in view 4", timer(5)),
        call(0, "propose C on B, by the timeout certificate", propose(C)),
        call(0, "the timer of view 5", timer(5)),
        call(0, "the timer of view 6", timer(6)),
        call(0, "propose D on C, by the timeout certificate of view 6", propose(D)),
    ]
}

/// In view 8, with D as lock.
fn refused() -> Vec<Told> {
    let shown_by = |sender| proposal(sender, 8, block(E, D, 5), &certificate(sender, 7, D, 1));
    vec![
        call(6, "a vote by replica 1 of one", vote(1, 8, E)),
        call(6, "a commit by replica 1", commit(1, 7, D)),
        call(6, "a timeout by replica 1", timeout(1, 8)),
        call(6, "a block certificate sent by replica 1", certificate(1, 7, D, 1)),
        call(5, "a proposal by replica 1: the certificate in it has that sender too", shown_by(1)),
        call(6, "its own vote comes back", vote(0, 7, D)),
        call(6, "its own commit", commit(0, 7, D)),
        call(6, "a timeout by oneself", timeout(0, 8)),
        call(6, "a proposal by oneself", shown_by(0)),
        call(10, "its own block certificate: not above the lock", certificate(0, 7, D, 1)),
        call(7, "its own timeout certificate: below the current view", timeouts(0, 6, &[0])),
        call(5, "a block certificate with signer 1", certificate(0, 8, E, 0b10)),
        call(9, "a block certificate without signers", certificate(0, 8, E, 0)),
        call(5, "a timeout certificate with a timeout of replica 1", timeouts(0, 8, &[1])),
        call(9, "a timeout certificate without timeouts", timeouts(0, 8, &[])),
    ]
}

fn blocks() -> Vec<Told> {
    vec![
        call(0, "block E on D", block_record(0, E, D, 5)),
        call(11, "propose E, which is held", propose(E)),
        call(0, "propose F on D: it is released, and E is dropped", propose(F)),
        call(12, "block E again: D isn't held any more", block_record(0, E, D, 5)),
    ]
}
