//! The cluster of six: f = 1, c = 1, k = 0. A block certificate takes 4 votes, a weak one 2, a timeout certificate 4
//! timeouts, a slow release 4 commits, a fast release 6 votes.

use oracle::{Vote, GENESIS};

use super::*;

/// 01's five missteps (the fourth is two: a vote, a commit) and the five quorums one lower.
pub fn all<K: Core>() -> Vec<Scenario<K>> {
    let scenario = |fault, byzantine, play, wrong, right| Scenario {
        name: fault,
        fault,
        settings: settings::six(),
        byzantine,
        play,
        wrong,
        right,
    };
    vec![
        scenario("p-from-c-k-2", &[0], p_from_c_k_2, [(4, "A"), (1, "B")], [(4, ""), (1, "AB")]),
        scenario("weak-over-block", &[0], weak_over_block, [(3, "A"), (2, "BC")], [(3, "A"), (2, "AC")]),
        scenario("high-votes-left-out", &[], high_votes_left_out, [(5, "A"), (1, "B")], [(5, "A"), (1, "AB")]),
        scenario("vote-after-timeout", &[], vote_after_timeout, [(5, "A"), (1, "B")], [(5, ""), (1, "B")]),
        scenario("commit-after-timeout", &[1], commit_after_timeout, [(0, "A"), (2, "B")], [(0, ""), (2, "B")]),
        scenario("safe-not-adopted", &[1], safe_not_adopted, [(0, "A"), (2, "B")], [(0, "A"), (2, "AB")]),
        scenario("block-quorum-lower", &[0], block_quorum_lower, [(1, "B"), (3, "AC")], [(1, ""), (3, "")]),
        scenario("weak-quorum-lower", &[0], weak_quorum_lower, [(5, "B"), (1, "AC")], [(5, "B"), (1, "BC")]),
        scenario("timeout-quorum-lower", &[1], timeout_quorum_lower, [(0, "A"), (2, "B")], [(0, "A"), (2, "")]),
        scenario("slow-quorum-lower", &[0], slow_quorum_lower, [(4, "A"), (1, "BC")], [(4, ""), (1, "BC")]),
        scenario("fast-quorum-lower", &[0], fast_quorum_lower, [(4, "B"), (1, "AC")], [(4, ""), (1, "AC")]),
    ]
}

// ---------------------------------------------------------------- the five missteps

/// p rounded from c+k+2 is 1 in place of 0: five votes are a fast release, and a weak certificate takes three votes.
///
/// Leader 0 lies. It shows A to 1, 2, 3 and 4, and nothing to 5. Replica 4 hears the votes of 0 to 4. With the error
/// five are enough and it releases A; then its link breaks. 1, 2 and 5 time out, and 0 claims that it never voted. The
/// next leader, 1, has four timeouts in hand, two of them with a vote for A. Counted rightly that is a weak
/// certificate, and 1 builds on A. With the error it is missed: 1 builds B on genesis, the others vote for B, and B is
/// released at A's height.
fn p_from_c_k_2<K: Core>(s: &mut Script<K>) {
    show(s, A, &[1, 2, 3, 4]);
    s.votes(&[1, 2, 3], 1, &[4]);
    s.lie(&vote(0, 1, A), &[4]);

    s.timers(&[1, 2, 5]);
    s.timeouts(&[2, 5], 1, &[1]);
    s.lie(&timeout_record(&timeout(0, 1, Vote::NONE)), &[1]);

    give(s, A, &[5]);
    lead(s, 1, 2, B, &[2, 3, 5]);
}

/// A weak certificate placed over a block certificate of its own view. This is the story that 01's users tell.
///
/// Leader 0 lies: it shows A to 1, 2 and 3, and B to 4 and 5. The four votes for A (0 votes too) reach 1, 2 and 3: each
/// has a block certificate and commits. Replica 3 hears four commits and releases A; then its link breaks. 4 and 5 hear
/// nothing of all this. In view 2 nothing comes, the clock of 2 runs out, 0 joins in and claims a vote for B, and 4
/// and 5 follow. The next leader, 2, has four timeouts in hand: its own carries the block certificate for A, the three
/// others give B as their vote of the same view. Ranked rightly the block certificate wins and 2 builds on A. Ranked
/// wrongly the three votes win: 2 builds on B, and a second chain follows.
fn weak_over_block<K: Core>(s: &mut Script<K>) {
    s.step(); // two blocks are shown
    show(s, A, &[1, 2, 3]);
    show(s, B, &[4, 5]);
    s.step(); // enough votes for A
    s.lie(&vote(0, 1, A), &[1, 2, 3]);
    s.votes(&[1, 2, 3], 1, &[1, 2, 3]);
    s.step(); // one replica releases A
    s.commits(&[1, 2], 1, &[3]);
    s.lie(&commit(0, 1, A), &[3]);

    s.step(); // the others time out
    let lie = timeout_record(&timeout(0, 2, high_vote(1, B)));
    s.timers(&[2]);
    s.timeouts(&[2], 2, &[4, 5]);
    s.lie(&lie, &[4, 5]);
    s.step(); // four timeouts in the next leader's hand
    s.timeouts(&[4, 5], 2, &[2]);
    s.lie(&lie, &[2]);

    s.step(); // it builds
    give(s, A, &[4, 5]);
    give(s, B, &[1, 2]);
    s.propose(2, C);
    s.proposal(2, 3, &[1, 4, 5]);
    s.step(); // it is decided
    decide(s, 3, 2, &[1, 4, 5]);
}

/// High votes left out, only carried certificates compared.
///
/// Nobody lies; the network is slow. Leader 0 proposes A and all six vote for it. Replica 5 hears all six votes and
/// releases A at once, the others hear no vote but their own. 1, 2, 3 and 4 time out. None of them has seen a
/// certificate, so all that speaks for A are their own votes. Leader 1 counts them and builds on A. With the error it
/// looks at the carried certificates alone, finds genesis, and builds B on it.
fn high_votes_left_out<K: Core>(s: &mut Script<K>) {
    s.propose(0, A);
    s.proposal(0, 1, &[1, 2, 3, 4, 5]);
    s.votes(&[0, 1, 2, 3, 4], 1, &[5]);

    s.timers(&[1, 2, 3, 4]);
    s.timeouts(&[2, 3, 4], 1, &[1]);
    lead(s, 1, 2, B, &[2, 3, 4]);
}

/// A vote in view v after a timeout for v.
///
/// Nobody lies. The clocks of 1, 2, 3 and 4 run out before the proposal of leader 0 comes: their timeouts say "no vote
/// yet". Then A arrives. With the error they still vote for it, so all six votes are there and 5 releases A. But the
/// four timeouts are on their way, and by them leader 1 builds B on genesis. Rightly the four don't vote for A any
/// more; then nobody releases A, and B is safe.
fn vote_after_timeout<K: Core>(s: &mut Script<K>) {
    s.timers(&[1, 2, 3, 4]);
    s.propose(0, A);
    s.proposal(0, 1, &[1, 2, 3, 4, 5]);
    s.votes(&[0, 1, 2, 3, 4], 1, &[5]);

    s.timeouts(&[2, 3, 4], 1, &[1]);
    lead(s, 1, 2, B, &[2, 3, 4]);
}

/// A commit in view v after a timeout for v.
///
/// Replica 1 is Byzantine, the leader of view 2. In view 1 leader 0 proposes A, which reaches 4 and 5 alone. 2, 3 and
/// 5 time out, and only 5 had voted. 0 hears the votes of 4, 5 and 1: with its own a block certificate, which it sends
/// to 2, 3 and 5. With the error these three commit although their timeouts are out, and 0, which hears them, releases
/// A. Now 1 shows everyone but 0 a timeout certificate of view 1: 2, 3 and itself without a vote, 5 with its single
/// vote for A, too few for a weak certificate. So genesis is the safe block; 1 proposes B on it, 2 to 5 vote and
/// commit, and 2 releases B. Rightly nobody but 0 commits A, so nobody releases it.
fn commit_after_timeout<K: Core>(s: &mut Script<K>) {
    s.propose(0, A);
    s.proposal(0, 1, &[4, 5]);
    s.timers(&[2, 3, 5]);
    s.votes(&[4, 5], 1, &[0]);
    s.lie(&vote(1, 1, A), &[0]);
    s.certificate(0, 1, &[2, 3, 5]);
    s.commits(&[2, 3, 5], 1, &[0]);

    let progress = s.timeout_certificate(1, 1, &[2, 3, 5], &[timeout(1, 1, Vote::NONE)]);
    s.lie(&proposal(1, 2, &block(B, GENESIS, 1), &progress), &[2, 3, 4, 5]);
    decide(s, 2, 2, &[3, 4, 5]);
}

/// A vote that doesn't adopt the safe certificate.
///
/// Replica 1 is Byzantine, the leader of view 2. In view 1 all vote for A, and 0 alone hears the six votes and releases
/// it. 2, 3 and 4 time out with their votes for A: 1 shows a proper timeout certificate of view 1, whose safe block is
/// A by a weak certificate. But it shows each of 2, 3, 4 and 5 another block on A: C, D, E and F. Each votes for what
/// it saw, and with that its high vote is no longer A. Rightly each has adopted the weak certificate for A and carries
/// it in its timeout of view 2, so the next leader, 2, builds on A. With the error nothing is carried, and the four
/// different high votes give no weak certificate: 2 builds B on genesis.
fn safe_not_adopted<K: Core>(s: &mut Script<K>) {
    s.propose(0, A);
    s.proposal(0, 1, &[2, 3, 4, 5]);
    s.votes(&[2, 3, 4, 5], 1, &[0]);
    s.lie(&vote(1, 1, A), &[0]);

    s.timers(&[2, 3, 4]);
    let progress = s.timeout_certificate(1, 1, &[2, 3, 4], &[timeout(1, 1, Vote::NONE)]);
    for (replica, name) in [(2, C), (3, D), (4, E), (5, F)] {
        s.lie(&proposal(1, 2, &block(name, A, 2), &progress), &[replica]);
    }

    s.timers(&[2, 3, 4, 5]);
    s.timeouts(&[3, 4, 5], 2, &[2]);
    lead(s, 2, 3, B, &[3, 4, 5]);
}

// ---------------------------------------------------------------- the five quorums one lower

/// A block certificate by 3 votes in place of 4: a view can have two.
///
/// Leader 0 lies: it shows B to 1 and 2, A to 3 and 4, and votes for both. With the error each side has a block
/// certificate. 5 gets the one for B and commits; with 0, 1 and 2 that is four commits, and 1 releases B. In view 2 the
/// clocks of 3 and 4 run out, 0 joins in, and the next leader, 2, has its own timeout with B's certificate and two with
/// A's, all of view 1. The smaller name ranks above: 2 builds C on A, and 3 releases A and C. Rightly there is no
/// certificate in view 1 at all and nobody releases.
fn block_quorum_lower<K: Core>(s: &mut Script<K>) {
    show(s, B, &[1, 2]);
    show(s, A, &[3, 4]);
    s.lie(&vote(0, 1, B), &[1, 2]);
    s.lie(&vote(0, 1, A), &[3, 4]);
    s.votes(&[1, 2], 1, &[1, 2]);
    s.votes(&[3, 4], 1, &[3, 4]);
    s.certificate(1, 1, &[5]);
    s.commits(&[2, 5], 1, &[1]);
    s.lie(&commit(0, 1, B), &[1]);

    s.timers(&[3, 4]);
    s.timeouts(&[3, 4], 2, &[2]);
    s.lie(&timeout_record(&timeout(0, 2, high_vote(1, A))), &[2]);
    give(s, A, &[2, 5]);
    s.propose(2, C);
    s.proposal(2, 3, &[3, 4, 5]);
    decide(s, 3, 3, &[2, 4, 5]);
}

/// A weak certificate by 1 vote in place of 2: a single liar can make one up.
///
/// Leader 0 lies. It shows B to all, all vote for B, and 5 hears six votes and releases B. 1, 2 and 3 time out with
/// their votes for B, but 0 claims to have voted for A, which nobody has seen. Rightly one vote is nothing and leader 1
/// builds on B. With the error it is a weak certificate of the same view and the smaller name: 1 builds C on A.
fn weak_quorum_lower<K: Core>(s: &mut Script<K>) {
    show(s, B, &[1, 2, 3, 4, 5]);
    s.votes(&[1, 2, 3, 4], 1, &[5]);
    s.lie(&vote(0, 1, B), &[5]);

    s.timers(&[1, 2, 3]);
    s.timeouts(&[2, 3], 1, &[1]);
    s.lie(&timeout_record(&timeout(0, 1, high_vote(1, A))), &[1]);
    give(s, A, &[1, 2, 3, 4]);
    lead(s, 1, 2, C, &[2, 3, 4]);
}

/// A timeout certificate by 3 timeouts in place of 4: it can miss all who committed.
///
/// Replica 1 is Byzantine, the leader of view 2. In view 1 leader 0 proposes A, which reaches 2 and 3. With the vote of
/// 1 there is a block certificate; 0, 2 and 3 commit, 1 too, and 0 releases A. 4 and 5 have heard nothing and time out.
/// With the error their two timeouts and one of 1 are a certificate by which genesis is safe: 1 proposes B on it, all
/// but 0 vote for it, and 2 releases B. Rightly a fourth timeout is needed, and any fourth replica has committed A: it
/// is in view 2 already and sends no timeout for view 1.
fn timeout_quorum_lower<K: Core>(s: &mut Script<K>) {
    s.propose(0, A);
    s.proposal(0, 1, &[2, 3]);
    s.lie(&vote(1, 1, A), &[0]);
    decide(s, 1, 0, &[2, 3]);
    s.lie(&commit(1, 1, A), &[0]);

    s.timers(&[4, 5]);
    let progress = s.timeout_certificate(1, 1, &[4, 5], &[timeout(1, 1, Vote::NONE)]);
    s.lie(&proposal(1, 2, &block(B, GENESIS, 1), &progress), &[2, 3, 4, 5]);
    decide(s, 2, 2, &[3, 4, 5]);
}

/// A slow release by 3 commits in place of 4: a timeout certificate can miss all who committed.
///
/// Leader 0 lies: it shows A to 3, 4 and 5, and B to 1 and 2. The votes for A reach 4 and 5, who have a block
/// certificate and commit; 3 doesn't hear of it. With the error the commits of 0, 4 and 5 are enough, and 4 releases A.
/// 1, 2 and 3 time out with votes for B, B and A, and 0 claims a vote for B: leader 1 rightly builds C on B, and 1
/// releases B and C. Rightly 4 waits for a fourth commit, which never comes.
fn slow_quorum_lower<K: Core>(s: &mut Script<K>) {
    show(s, A, &[3, 4, 5]);
    show(s, B, &[1, 2]);
    s.lie(&vote(0, 1, A), &[4, 5]);
    s.votes(&[3, 4, 5], 1, &[4, 5]);
    s.commits(&[5], 1, &[4]);
    s.lie(&commit(0, 1, A), &[4]);

    s.timers(&[1, 2, 3]);
    s.timeouts(&[2, 3], 1, &[1]);
    s.lie(&timeout_record(&timeout(0, 1, high_vote(1, B))), &[1]);
    give(s, B, &[3]);
    s.propose(1, C);
    s.proposal(1, 2, &[2, 3]);
    s.lie(&vote(0, 2, C), &[1]);
    decide(s, 2, 1, &[2, 3]);
    s.lie(&commit(0, 2, C), &[1]);
}

/// A fast release by 5 votes in place of 6: four timeouts can show as many votes for another block.
///
/// Leader 0 lies: it shows B to 1, 2, 3 and 4, and A to 5. With the error 4, which hears the votes of 0 to 4, releases
/// B. 1, 2 and 5 time out with votes for B, B and A, and 0 claims a vote for A: two against two, and the smaller name
/// ranks above. Leader 1 rightly builds C on A and releases A and C. Rightly 4 waits for a sixth vote for B, which
/// can't come.
fn fast_quorum_lower<K: Core>(s: &mut Script<K>) {
    show(s, B, &[1, 2, 3, 4]);
    show(s, A, &[5]);
    s.votes(&[1, 2, 3], 1, &[4]);
    s.lie(&vote(0, 1, B), &[4]);

    s.timers(&[1, 2, 5]);
    s.timeouts(&[2, 5], 1, &[1]);
    s.lie(&timeout_record(&timeout(0, 1, high_vote(1, A))), &[1]);
    give(s, A, &[1, 2, 3]);
    lead(s, 1, 2, C, &[2, 3, 5]);
}

// ---------------------------------------------------------------- a host that resumes from an old state

/// A replica that resumes from an older state than its last finished call: without any error in the replicas.
///
/// Leader 0 lies. It shows A to 1, 2 and 3; their votes and its own are a block certificate, all commit, and 1 releases
/// A. Now the host of 3 stops and starts again. If it goes on from the state that the last finished call left, 3 is in
/// view 2 and refuses what else comes of view 1. If its host puts back a save from before the proposal (`old_state`), 3
/// has forgotten its vote and its commit: 0 shows B to 3, 4 and 5, the same way leads to four commits for B, and 4
/// releases B. An honest replica with an old state is one Byzantine replica more than the cluster bears.
pub fn resume<K: Core>(s: &mut Script<K>, old_state: bool) {
    let before = s.cluster.save(3);
    show(s, A, &[1, 2, 3]);
    s.lie(&vote(0, 1, A), &[1, 2, 3]);
    s.votes(&[1, 2, 3], 1, &[1, 2, 3]);
    s.commits(&[2, 3], 1, &[1]);
    s.lie(&commit(0, 1, A), &[1]);

    let last = s.cluster.save(3);
    s.cluster.restore(3, if old_state { before } else { last });

    show(s, B, &[3, 4, 5]);
    s.lie(&vote(0, 1, B), &[3, 4, 5]);
    s.votes(&[3, 4, 5], 1, &[3, 4, 5]);
    s.commits(&[3, 5], 1, &[4]);
    s.lie(&commit(0, 1, B), &[4]);
}
