//! Each refusal of each kind of call, as far as a run of replica 0 of six leads to it, and the opening's.

use oracle::{Name, GENESIS};

use crate::make::*;
use crate::{call, StoredRun, Told};

pub fn bad_settings() -> StoredRun {
    let input = [opening([1, 1, 0, 7], 1), timer(1)].concat();
    StoredRun::plain("bad-settings", "refusal 1: n is 7, but f, c, k give 6; nothing after it is read", input)
}

pub fn too_many() -> StoredRun {
    let input = [opening([8, 4, 0, 33], 1), timer(1)].concat();
    StoredRun::plain("bad-settings-33", "refusal 1: n is what f, c, k give, but over 32", input)
}

pub fn run() -> StoredRun {
    let about =
        "replica 0: every refusal from 4 to 15, by each kind of call that can have it; then 3, which ends the run";
    let told = [in_view_1(), leaving_view_1(), in_view_2(), in_view_7(), full(), vec![cut_short()]];
    StoredRun::told("refusals", about, SIX, 0, told.into_iter().flatten().collect())
}

/// 0 leads view 1 and proposes A.
fn in_view_1() -> Vec<Told> {
    vec![
        call(4, "a release: no kind that a replica takes", with(vote(2, 1, A), 4, &[9])),
        call(5, "propose the zero name", propose(GENESIS)),
        call(6, "propose with a sender", sent_by(propose(A), 1)),
        call(5, "a block without a name", block_record(2, GENESIS, GENESIS, 1)),
        call(6, "a block by replica 6 of six", block_record(6, B, GENESIS, 1)),
        call(12, "a block on a parent that isn't held", block_record(2, C, B, 2)),
        call(13, "a block on genesis with height 2", block_record(2, B, GENESIS, 2)),
        call(0, "block B on genesis", block_record(2, B, GENESIS, 1)),
        call(10, "the same block", block_record(3, B, GENESIS, 1)),
        call(11, "block B with another height", block_record(2, B, GENESIS, 2)),
        call(11, "propose B, which is held", propose(B)),
        call(0, "propose A", propose(A)),
        call(15, "propose once more: voted in this view", propose(C)),
        call(5, "a vote for the zero name", vote(2, 1, GENESIS)),
        call(6, "a vote by oneself", vote(0, 1, A)),
        call(6, "a vote by replica 6 of six", vote(6, 1, A)),
        call(7, "a vote of view 0", vote(2, 0, A)),
        call(8, "a vote of view 5, in view 1", vote(2, 5, A)),
        call(0, "a vote of view 4", vote(2, 4, A)),
        call(0, "a vote of 2 for A", vote(2, 1, A)),
        call(10, "the same vote", vote(2, 1, A)),
        call(11, "a vote of 2 for B in the same view", vote(2, 1, B)),
        call(5, "a commit for the zero name", commit(2, 1, GENESIS)),
        call(6, "a commit by oneself", commit(0, 1, A)),
        call(7, "a commit of view 0", commit(2, 0, A)),
        call(8, "a commit of view 5", commit(2, 5, A)),
        call(0, "a commit of 2 for A", commit(2, 1, A)),
        call(10, "the same commit", commit(2, 1, A)),
        call(11, "a commit of 2 for B in the same view", commit(2, 1, B)),
        call(5, "a block certificate with signer 6", certificate(2, 1, A, FOUR | 1 << 6)),
        call(6, "a block certificate sent by 6", certificate(6, 1, A, FOUR)),
        call(8, "a block certificate of view 2^62", certificate(2, ABOVE, A, FOUR)),
        call(9, "a block certificate with three signers", certificate(2, 1, A, 0b111)),
        call(9, "a block certificate of view 0 that isn't genesis'", certificate(2, 0, A, FOUR)),
        call(10, "the genesis certificate: not above the lock", genesis_certificate(2)),
    ]
}

/// Timeouts and timers of view 1; a timeout certificate ends it.
fn leaving_view_1() -> Vec<Told> {
    let weak_by_one = with(timeout(2, 1), 56, &[4]);
    let weak_by_one = with(with(with(weak_by_one, 64, &[1]), 72, &A), 104, &[1]);
    let voted = with(with(timeout(2, 1), 16, &[1]), 24, &A);
    vec![
        call(4, "a timeout whose certificate has kind 5", with(timeout(2, 1), 56, &[5])),
        call(5, "a timeout with nonzero padding", with(timeout(2, 1), 58, &[1])),
        call(5, "a timeout whose high vote has a name and no view", with(timeout(2, 1), 24, &A)),
        call(6, "a timeout by oneself", timeout(0, 1)),
        call(7, "a timeout of view 0", timeout(2, 0)),
        call(8, "a timeout of view 5", timeout(2, 5)),
        call(9, "a timeout with a weak certificate by one signer", weak_by_one),
        call(9, "a timeout whose high vote is of a later view", with(with(timeout(2, 1), 16, &[2]), 24, &A)),
        call(0, "a timeout of 2", timeout(2, 1)),
        call(10, "the same timeout", timeout(2, 1)),
        call(11, "another timeout of 2 for the same view", voted),
        call(6, "a timer with a sender", sent_by(timer(1), 2)),
        call(7, "the timer of view 0", timer(0)),
        call(8, "the timer of view 2, in view 1", timer(2)),
        call(0, "the timer of view 1", timer(1)),
        call(10, "the timer of view 1 again", timer(1)),
        call(15, "propose after the timeout", propose(C)),
        call(4, "a timeout certificate with a vote among its timeouts", with(timeouts(2, 1, &[1, 2, 3, 4]), 28, &[1])),
        call(5, "a timeout certificate with two senders swapped", timeouts(2, 1, &[1, 3, 2, 4])),
        call(6, "a timeout certificate sent by 6", timeouts(6, 1, &[1, 2, 3, 4])),
        call(7, "a timeout certificate of view 0", timeouts(2, 0, &[1, 2, 3, 4])),
        call(8, "a timeout certificate of view 2^62", timeouts(2, ABOVE, &[1, 2, 3, 4])),
        call(9, "a timeout certificate with three timeouts", timeouts(2, 1, &[1, 2, 3])),
        call(0, "a timeout certificate with four", timeouts(2, 1, &[1, 2, 3, 4])),
        call(7, "the same: below the current view now", timeouts(2, 1, &[1, 2, 3, 4])),
    ]
}

/// 1 leads view 2, and the safe block is genesis.
fn in_view_2() -> Vec<Told> {
    let progress = timeouts(1, 1, &[1, 2, 3, 4]);
    let proposed = |name, parent, height| proposal(1, 2, block(name, parent, height), &progress);
    let sent_by_2 = proposal(2, 2, block(C, GENESIS, 1), &timeouts(2, 1, &[1, 2, 3, 4]));
    vec![
        call(15, "propose in a view that another leads", propose(C)),
        call(7, "the timer of view 1, in view 2", timer(1)),
        call(4, "a proposal with a certificate of kind 8", with(proposed(C, GENESIS, 1), 92, &[8])),
        call(5, "a proposal of the zero name", proposed(GENESIS, GENESIS, 1)),
        call(5, "a proposal whose certificate has another sender", with(proposed(C, GENESIS, 1), 94, &[2])),
        call(6, "a proposal by 2 in the view of 1", sent_by_2),
        call(7, "a proposal of view 0", proposal(1, 0, block(C, GENESIS, 1), &progress)),
        // 2^62 is 4 above a multiple of 6: its leader is 3
        call(8, "a proposal of view 2^62", proposal(3, ABOVE, block(C, GENESIS, 1), &genesis_certificate(3))),
        call(
            9,
            "a proposal of view 2 by a certificate of view 0",
            proposal(1, 2, block(C, GENESIS, 1), &genesis_certificate(1)),
        ),
        call(11, "a proposal of B, which is held with another parent", proposed(B, A, 2)),
        call(13, "a proposal on A, which isn't the safe block", proposed(C, A, 2)),
        call(13, "a proposal on genesis with height 2", proposed(C, GENESIS, 2)),
        call(
            12,
            "a proposal of view 3 whose safe block isn't held",
            proposal(2, 3, block(D, C, 2), &certificate(2, 2, C, FOUR)),
        ),
        call(0, "a proposal of C on genesis", proposed(C, GENESIS, 1)),
        call(10, "the same: voted for", proposed(C, GENESIS, 1)),
        call(11, "another name in the same view", proposed(D, GENESIS, 1)),
    ]
}

/// A certificate of view 6 for D leads to view 7, which 0 leads again.
fn in_view_7() -> Vec<Told> {
    vec![
        call(0, "a block certificate of view 6 for D, which isn't held", certificate(2, 6, D, FOUR)),
        call(10, "the same: not above the lock", certificate(3, 6, D, FOUR)),
        call(12, "propose: the safe block isn't held", propose(E)),
        call(
            7,
            "a proposal of view 2, in view 7",
            proposal(1, 2, block(E, GENESIS, 1), &timeouts(1, 1, &[1, 2, 3, 4])),
        ),
        call(7, "a vote of view 2, in view 7: its window begins at 3", vote(3, 2, A)),
        call(7, "a timeout of view 6, in view 7", timeout(3, 6)),
        call(0, "block D", block_record(2, D, GENESIS, 1)),
    ]
}

/// The store takes 128 blocks: A to D and 124 more.
fn full() -> Vec<Told> {
    let filling =
        |number: u8| call(0, "one more block, to fill the store", block_record(2, numbered(number), GENESIS, 1));
    let mut calls: Vec<Told> = (0..124).map(filling).collect();
    let next = proposal(1, 8, block(E, D, 2), &certificate(1, 7, D, FOUR));
    calls.push(call(14, "a block when 128 are held", block_record(2, E, D, 2)));
    calls.push(call(14, "a proposal of a new block", next));
    calls.push(call(14, "propose", propose(E)));
    calls
}

/// Names that are no letters and differ in their first bytes.
fn numbered(number: u8) -> Name {
    std::array::from_fn(|at| if at % 2 == 0 { 0xb0 } else { number })
}

fn cut_short() -> Told {
    let mut shorter = vote(3, 7, D);
    shorter.pop();
    call(3, "a vote of 47 bytes that says so: the run stops", with(shorter, 0, &[47]))
}
