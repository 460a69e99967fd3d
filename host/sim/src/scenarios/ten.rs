//! The cluster of ten: f = 1, c = 2, k = 2, so p = 2. A block certificate takes 6 votes, a weak one 4, a timeout
//! certificate 7 timeouts, a slow release 5 commits, a fast release 8 votes. In all scripts replica 0 lies, the leader
//! of view 1.

use oracle::Vote;

use super::*;

/// p from c+k+2 and the five quorums one lower.
pub fn all<K: Core>() -> Vec<Scenario<K>> {
    let scenario = |name: &'static str, play, wrong, right| Scenario {
        name,
        fault: name.strip_prefix("ten-").expect("the error's name behind the cluster's"),
        settings: settings::ten(),
        byzantine: &[0],
        play,
        wrong,
        right,
    };
    vec![
        scenario("ten-p-from-c-k-2", p_from_c_k_2, [(6, "A"), (1, "B")], [(6, ""), (1, "AB")]),
        scenario("ten-block-quorum-lower", block_quorum_lower, [(1, "A"), (5, "B")], [(1, ""), (5, "")]),
        scenario("ten-weak-quorum-lower", weak_quorum_lower, [(7, "B"), (1, "AC")], [(7, "B"), (1, "BC")]),
        scenario("ten-timeout-quorum-lower", timeout_quorum_lower, [(7, "A"), (1, "B")], [(7, "A"), (1, "AB")]),
        scenario("ten-slow-quorum-lower", slow_quorum_lower, [(9, "A"), (1, "B")], [(9, ""), (1, "B")]),
        scenario("ten-fast-quorum-lower", fast_quorum_lower, [(6, "B"), (1, "AC")], [(6, ""), (1, "AC")]),
    ]
}

/// The clocks of these run out, and 1, the leader of view 2, who is among them, gets their timeouts and one of 0 with
/// this high vote.
fn time_out<K: Core>(s: &mut Script<K>, replicas: &[usize], claimed: Vote) {
    s.timers(replicas);
    s.timeouts(replicas, 1, &[1]);
    s.lie(&timeout_record(&timeout(0, 1, claimed)), &[1]);
}

/// p rounded from c+k+2 is 3 in place of 2: seven votes are a fast release, and a weak certificate takes five votes.
///
/// Leader 0 shows A to 1 to 6, and nothing to 7, 8 and 9. Replica 6 hears the votes of 0 to 6. With the error seven are
/// enough and it releases A; then its link breaks. 1, 2, 3, 4, 7 and 8 time out, and 0 claims that it never voted. The
/// next leader, 1, has seven timeouts in hand, four of them with a vote for A. Counted rightly that is a weak
/// certificate, and 1 builds on A. With the error it is missed: 1 builds B on genesis, and B is released at A's height.
fn p_from_c_k_2<K: Core>(s: &mut Script<K>) {
    show(s, A, &[1, 2, 3, 4, 5, 6]);
    s.votes(&[1, 2, 3, 4, 5], 1, &[6]);
    s.lie(&vote(0, 1, A), &[6]);

    time_out(s, &[1, 2, 3, 4, 7, 8], Vote::NONE);
    give(s, A, &[7]);
    lead(s, 1, 2, B, &[2, 3, 4, 5, 7]);
}

/// A block certificate by 5 votes in place of 6: a view can have two.
///
/// Leader 0 shows A to 1 to 4, and B to 5 to 9, and votes and commits for A. With the error the five votes on either
/// side are a block certificate, all of that side commit, and the five commits on either side are a slow release: 1
/// releases A, and 5 releases B. Rightly there is no certificate in view 1 and nobody releases.
fn block_quorum_lower<K: Core>(s: &mut Script<K>) {
    show(s, A, &[1, 2, 3, 4]);
    show(s, B, &[5, 6, 7, 8, 9]);
    s.lie(&vote(0, 1, A), &[1]);
    decide(s, 1, 1, &[2, 3, 4]);
    s.lie(&commit(0, 1, A), &[1]);
    decide(s, 1, 5, &[6, 7, 8, 9]);
}

/// A weak certificate by 3 votes in place of 4: beside the block of a fast release another one can have it.
///
/// Leader 0 shows B to 1 to 7, and A to 8 and 9. Replica 7 hears the votes of 0 to 7, eight of ten, and releases B; then
/// its link breaks. 1, 2, 3, 4, 8 and 9 time out, and 0 now claims a vote for A. The next leader, 1, has seven timeouts
/// in hand: four votes for B, three for A. Rightly B alone has a weak certificate, and 1 builds C on B. With the error A
/// has one of the same view, and the smaller name: 1 builds C on A, and releases A and C.
fn weak_quorum_lower<K: Core>(s: &mut Script<K>) {
    show(s, B, &[1, 2, 3, 4, 5, 6, 7]);
    show(s, A, &[8, 9]);
    s.votes(&[1, 2, 3, 4, 5, 6], 1, &[7]);
    s.lie(&vote(0, 1, B), &[7]);

    time_out(s, &[1, 2, 3, 4, 8, 9], high_vote(1, A));
    give(s, A, &[1, 2, 3, 4, 5, 6]);
    lead(s, 1, 2, C, &[2, 3, 4, 5, 6]);
}

/// A timeout certificate by 6 timeouts in place of 7: it can have too few of those whose votes released a block.
///
/// Leader 0 shows A to 1 to 7, and nothing to 8 and 9. Replica 7 hears the votes of 0 to 7 and releases A; then its
/// link breaks. 1, 2, 3, 8 and 9 time out, and 0 claims that it never voted. With the error the next leader, 1, has
/// enough timeouts in hand, three of them with a vote for A: no weak certificate. It builds B on genesis, and B is
/// released at A's height. Rightly a seventh timeout is needed, and whoever of the honest sends it voted for A: with that
/// of 4 there are four votes for A, and 1 builds on A.
fn timeout_quorum_lower<K: Core>(s: &mut Script<K>) {
    show(s, A, &[1, 2, 3, 4, 5, 6, 7]);
    s.votes(&[1, 2, 3, 4, 5, 6], 1, &[7]);
    s.lie(&vote(0, 1, A), &[7]);

    time_out(s, &[1, 2, 3, 8, 9], Vote::NONE);
    s.timers(&[4]);
    s.timeouts(&[4], 1, &[1]);
    lead(s, 1, 2, B, &[2, 3, 4, 5, 6]);
}

/// A slow release by 4 commits in place of 5: a timeout certificate can miss all who committed.
///
/// Leader 0 shows A to 5 to 9, and nothing to 1 to 4. The votes of 0 and 5 to 9 reach 7, 8 and 9, who have a block
/// certificate and commit; 5 and 6 don't hear of it. With the error the commits of 0, 7, 8 and 9 are enough, and 9
/// releases A. 1 to 6 time out, and 0 claims that it never voted: two votes for A in seven timeouts, and no
/// certificate. Leader 1 rightly builds B on genesis and releases B. Rightly 9 waits for a fifth commit, which never
/// comes.
fn slow_quorum_lower<K: Core>(s: &mut Script<K>) {
    show(s, A, &[5, 6, 7, 8, 9]);
    s.lie(&vote(0, 1, A), &[7, 8, 9]);
    s.votes(&[5, 6, 7, 8, 9], 1, &[7, 8, 9]);
    s.commits(&[7, 8], 1, &[9]);
    s.lie(&commit(0, 1, A), &[9]);

    time_out(s, &[1, 2, 3, 4, 5, 6], Vote::NONE);
    lead(s, 1, 2, B, &[2, 3, 4, 5, 6]);
}

/// A fast release by 7 votes in place of 8: seven timeouts can show more votes for another block.
///
/// Leader 0 shows B to 1 to 6, and A to 7, 8 and 9. With the error 6, which hears the votes of 0 to 6, releases B. 1, 2,
/// 3, 7, 8 and 9 time out, and 0 claims a vote for A: four votes for A, three for B. Leader 1 rightly builds C on A and
/// releases A and C. Rightly 6 waits for an eighth vote for B, which can't come.
fn fast_quorum_lower<K: Core>(s: &mut Script<K>) {
    show(s, B, &[1, 2, 3, 4, 5, 6]);
    show(s, A, &[7, 8, 9]);
    s.votes(&[1, 2, 3, 4, 5], 1, &[6]);
    s.lie(&vote(0, 1, B), &[6]);

    time_out(s, &[1, 2, 3, 7, 8, 9], high_vote(1, A));
    give(s, A, &[1, 2, 3]);
    lead(s, 1, 2, C, &[2, 3, 7, 8, 9]);
}
