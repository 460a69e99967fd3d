//! A leader splits the cluster of six in two, and the next leader's choice between the halves hangs on one timeout.

use oracle::{Certificate, Name, View, Vote, GENESIS};

use crate::make::*;
use crate::{call, calls, StoredRun, Told};

/// Replica 1, the leader of view 2. 0 lies: in view 1 it shows B to 1 and 4, A to 2 and 3, and nothing to 5. It then
/// hands on the timeouts of all five, though four are enough.
pub fn run() -> StoredRun {
    let about = "replica 1, the next leader: two of six voted for A and two for B, itself too; handed all five timeouts it builds \
                 on A, and that hangs on the timeout of 2";
    let told = [in_view_1(), in_view_2()];
    StoredRun::told("decisive-timeout", about, SIX, 1, told.into_iter().flatten().collect())
}

fn in_view_1() -> Vec<Told> {
    let shown = proposal(0, 1, block(B, GENESIS, 1), &genesis_certificate(0));
    let five = [
        timeout_of(1, Some(B)),
        timeout_of(2, Some(A)),
        timeout_of(3, Some(A)),
        timeout_of(4, Some(B)),
        timeout_of(5, None),
    ];
    vec![
        call(0, "the liar's proposal of B; others are shown A", shown),
        call(0, "the clock runs out", timer(1)),
        call(
            0,
            "the liar hands on five timeouts: A and B have two votes each, and the smaller name is safe",
            timeouts_of(0, 1, &five),
        ),
    ]
}

/// Of view 1, after a vote for this name or without one.
fn timeout_of(sender: u16, voted: Option<Name>) -> Vec<u8> {
    let high_vote = voted.map_or(Vote::NONE, |name| Vote { view: View(1), name });
    timeout_with(sender, 1, high_vote, Certificate::GENESIS)
}

fn in_view_2() -> Vec<Told> {
    let mut told = vec![
        call(12, "propose C: A, the safe block, isn't held", propose(C)),
        call(0, "block A, as the host fetches it", block_record(2, A, GENESIS, 1)),
        call(0, "propose C on A", propose(C)),
    ];
    told.extend(calls(0, "a vote", [2, 3].map(|sender| vote(sender, 2, C))));
    told.push(call(0, "the fourth vote, with one's own: a block certificate and a commit", vote(5, 2, C)));
    told.extend(calls(0, "a commit", [2, 3].map(|sender| commit(sender, 2, C))));
    told.push(call(0, "the fourth commit: A and C are released", commit(5, 2, C)));
    told
}
