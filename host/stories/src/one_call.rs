//! Two rules in one call: with k far above the rest a fast release takes no more votes than a block certificate, and in
//! small clusters the timeouts that are echoed make a certificate with one's own.

use oracle::{Certificate, Name, View, Vote, GENESIS};

use crate::make::*;
use crate::{call, calls, StoredRun, Told};

/// Replica 1 of 32, f = 0, c = 0, k = 31. A block certificate takes 17 votes, and p is 15, so a fast release takes as
/// many; a slow one takes a single commit.
pub fn one_vote() -> StoredRun {
    let first = proposal(0, 1, block(A, GENESIS, 1), &genesis_certificate(0));
    let third = proposal(2, 3, block(C, B, 3), &certificate(2, 2, B, (1 << 17) - 1));
    let mut told = vec![call(0, "a proposal of A", first)];
    told.extend(fifteen_votes(1, A));
    told.push(call(0, "the 17th vote: a block certificate, a commit and the release of A", vote(16, 1, A)));
    told.push(call(0, "propose B on A", propose(B)));
    told.extend(fifteen_votes(2, B));
    told.push(call(0, "the 17th vote: a block certificate, a commit and the release of B", vote(16, 2, B)));
    told.extend(fifteen_votes(3, C));
    told.push(call(0, "a vote", vote(16, 3, C)));
    told.push(call(0, "the proposal of C on B: one's own vote is the 17th, and C is released", third));
    let about = "replica 1: 17 of 32 votes are a block certificate and a fast release, so one vote runs rules C and D";
    StoredRun::told("one-vote-decides", about, [0, 0, 31, 32], 1, told)
}

/// The votes of 0 and of 2 to 15.
fn fifteen_votes(view: u64, name: Name) -> Vec<Told> {
    let senders: [u16; 15] = std::array::from_fn(|at| if at == 0 { 0 } else { at as u16 + 1 });
    calls(0, "a vote", senders.map(|sender| vote(sender, view, name)))
}

/// Replica 1 of three, f = 0, c = 1, k = 0: one timeout is echoed, and two are a certificate. 2 has stopped.
pub fn one_timeout() -> StoredRun {
    let lock = Certificate::block(View(2), A, 0b11);
    let timeout_of = |sender| timeout_with(sender, 3, Vote { view: View(2), name: A }, lock);
    let progress = timeouts_of(0, 3, &[timeout_of(0), timeout_of(1)]);
    let told = vec![
        call(0, "a timeout of 0: it is echoed, and both are a timeout certificate", timeout(0, 1)),
        call(0, "propose A", propose(A)),
        call(0, "a vote of 0: a block certificate and a commit", vote(0, 2, A)),
        call(0, "a commit of 0: the release of A", commit(0, 2, A)),
        call(0, "2 should lead, and the clock runs out", timer(3)),
        call(0, "a timeout of 0: a timeout certificate", timeout_of(0)),
        call(0, "a proposal of B on A, by the two timeouts", proposal(0, 4, block(B, A, 2), &progress)),
        call(0, "a vote of 0: a block certificate and a commit", vote(0, 4, B)),
        call(0, "a commit of 0: the release of B", commit(0, 4, B)),
    ];
    let about = "replica 1: one of three has stopped, and a single timeout runs rules A and B";
    StoredRun::told("one-timeout-decides", about, [0, 1, 0, 3], 1, told)
}
