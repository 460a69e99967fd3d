//! 01's listing, and the two ways to a release.

use oracle::GENESIS;

use crate::make::*;
use crate::StoredRun;

pub fn listing() -> StoredRun {
    let calls = [timer(2), timer(1), timer(1), propose([1; 32])];
    let input = [opening(SIX, 1), calls.concat()].concat();
    StoredRun::plain(
        "listing",
        "01's listing: a timer too early, on time and again; a proposal by another than the leader",
        input,
    )
}

/// Replica 2 of six. View 1 ends with the fourth vote, the releases come with the sixth.
pub fn fast() -> StoredRun {
    let second = proposal(1, 2, block(B, A, 2), &certificate(1, 1, A, FOUR));
    let mut calls = vec![proposal(0, 1, block(A, GENESIS, 1), &genesis_certificate(0))];
    calls.extend([0, 1, 3, 4, 5].map(|sender| vote(sender, 1, A)));
    calls.push(second);
    calls.extend([0, 1, 3, 4, 5].map(|sender| vote(sender, 2, B)));
    let about = "six of six vote, twice: a certificate and a commit by the fourth vote, the release by the sixth";
    StoredRun::plain("fast-release", about, [opening(SIX, 2), calls.concat()].concat())
}

/// Replica 4 of six. It hears three votes beside its own, then commits; the second block comes after its commits.
pub fn slow() -> StoredRun {
    let mut calls = vec![proposal(0, 1, block(A, GENESIS, 1), &genesis_certificate(0))];
    calls.extend([0, 1, 2].map(|sender| vote(sender, 1, A)));
    calls.extend([0, 1, 2].map(|sender| commit(sender, 1, A)));
    calls.push(certificate(1, 2, B, FOUR));
    calls.extend([0, 1, 3].map(|sender| commit(sender, 2, B)));
    calls.push(block_record(3, B, A, 2));
    let about =
        "four votes, then four commits release A; B is committed by four before its block comes, which releases it";
    StoredRun::plain("slow-release", about, [opening(SIX, 4), calls.concat()].concat())
}
