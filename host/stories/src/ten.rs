//! The cluster of ten that document 000 measures in Section 6: f = 1, c = 2, k = 2. A block certificate takes 6 votes, a
//! timeout certificate 7 timeouts, a slow release 5 commits; p is 2, so a fast release takes 8 votes.

use oracle::{Certificate, Name, View, Vote, GENESIS};

use crate::make::*;
use crate::{call, calls, StoredRun, Told};

/// Replica 2 of ten. 8 and 9 are silent, as many as p; view 3 it leads itself.
pub fn fast() -> StoredRun {
    let second = proposal(1, 2, block(B, A, 2), &certificate(1, 1, A, 0b11_1111));
    let mut told = vec![call(0, "a proposal of A", proposal(0, 1, block(A, GENESIS, 1), &genesis_certificate(0)))];
    told.extend(eight_votes(1, A));
    told.push(call(0, "a proposal of B on A", second));
    told.extend(eight_votes(2, B));
    told.push(call(0, "propose C on B", propose(C)));
    told.extend(eight_votes(3, C));
    told.push(call(0, "a vote of 8 that comes late", vote(8, 3, C)));
    let about = "replica 2: two of ten are silent, and the votes of the other eight release, three times; view 3 it leads itself";
    StoredRun::told("ten-fast-release", about, TEN, 2, told)
}

/// The votes of all but oneself, 8 and 9.
fn eight_votes(view: u64, name: Name) -> Vec<Told> {
    let of = |sender| vote(sender, view, name);
    let mut told = calls(0, "a vote", [of(0), of(1), of(3), of(4)]);
    told.push(call(0, "the sixth vote, with one's own: a block certificate and a commit", of(5)));
    told.push(call(0, "the seventh vote", of(6)));
    told.push(call(0, "the eighth vote: a fast release, though 8 and 9 are silent", of(7)));
    told
}

/// Replica 3 of ten. 1 lies, 8 and 9 have stopped: more than p, so no fast release comes.
pub fn slow() -> StoredRun {
    let told = [in_view_1(), in_view_2(), in_view_3(), in_view_4()];
    let about = "replica 3: one of ten lies and two have stopped, as many as f and c; seven go on, and five commits release, three \
                 times; view 2 is the liar's and ends by seven timeouts";
    StoredRun::told("ten-slow-release", about, TEN, 3, told.into_iter().flatten().collect())
}

/// Those whose votes make the certificate for A at replica 3.
const SIGNERS: u64 = 0b111_1101;

/// Votes and commits of the seven that go on, up to a slow release.
fn six_votes_and_five_commits(view: u64, name: Name) -> Vec<Told> {
    let vote_of = |sender| vote(sender, view, name);
    let commit_of = |sender| commit(sender, view, name);
    let mut told = calls(0, "a vote", [0, 2, 4, 5].map(vote_of));
    told.push(call(0, "the sixth vote, with one's own: a block certificate and a commit", vote_of(6)));
    told.push(call(0, "the seventh vote: one too few for a fast release", vote_of(7)));
    told.extend(calls(0, "a commit", [0, 2, 4].map(commit_of)));
    told.push(call(0, "the fifth commit, with one's own: a slow release", commit_of(5)));
    told
}

fn in_view_1() -> Vec<Told> {
    let mut told = vec![
        call(0, "a proposal of A", proposal(0, 1, block(A, GENESIS, 1), &genesis_certificate(0))),
        call(5, "the liar's vote for the zero name", vote(1, 1, GENESIS)),
        call(0, "the liar's vote for B, which nobody has seen", vote(1, 1, B)),
        call(11, "the liar's vote for A in the same view", vote(1, 1, A)),
        call(9, "a certificate for B that the liar has signed alone", certificate(1, 1, B, 0b10)),
        call(5, "a certificate for A with a signer outside the cluster", certificate(1, 1, A, SIGNERS | 1 << 10)),
        call(0, "the liar's commit for B", commit(1, 1, B)),
        call(11, "the liar's commit for A in the same view", commit(1, 1, A)),
    ];
    told.extend(six_votes_and_five_commits(1, A));
    told
}

/// The liar leads, and shows C to 3 and D to 4.
fn in_view_2() -> Vec<Told> {
    let shown = |name, parent, height| proposal(1, 2, block(name, parent, height), &certificate(1, 1, A, SIGNERS));
    let too_few = Certificate::weak(View(1), B, 0b111);
    let voted = Vote { view: View(2), name: D };
    let mut told = vec![
        call(13, "the liar's proposal of C on genesis, which isn't the safe block", shown(C, GENESIS, 1)),
        call(0, "the liar's proposal of C on A", shown(C, A, 2)),
        call(11, "the liar's proposal of D on A in the same view", shown(D, A, 2)),
        call(0, "the clock runs out", timer(2)),
        call(6, "the liar's timeout with one's own number", with(timeout(1, 2), 6, &[3])),
        call(9, "the liar's timeout with a weak certificate by three", timeout_with(1, 2, voted, too_few)),
        call(9, "the liar's timeout certificate with six timeouts", timeouts(1, 2, &[0, 1, 2, 4, 5, 6])),
    ];
    told.extend(calls(0, "a timeout that carries the certificate for A", [0, 2, 4, 5, 6].map(timeout_of)));
    told.push(call(0, "the seventh timeout, with one's own: a timeout certificate", timeout_of(7)));
    told
}

/// The timeout of view 2 of one of the seven that go on. 3 has voted for C, 4 for D, the others last for A.
fn timeout_of(sender: u16) -> Vec<u8> {
    let high_vote = match sender {
        3 => Vote { view: View(2), name: C },
        4 => Vote { view: View(2), name: D },
        _ => Vote { view: View(1), name: A },
    };
    timeout_with(sender, 2, high_vote, Certificate::block(View(1), A, SIGNERS))
}

fn in_view_3() -> Vec<Told> {
    let seven = [0, 2, 3, 4, 5, 6, 7].map(timeout_of);
    let shown_by = |sender, name| proposal(sender, 3, block(name, A, 2), &timeouts_of(sender, 2, &seven));
    let mut told = vec![
        call(0, "a proposal of E on A, the safe block of the seven timeouts", shown_by(2, E)),
        call(6, "the liar's proposal in the view of 2", shown_by(1, D)),
        call(0, "the liar's vote for D", vote(1, 3, D)),
    ];
    told.extend(six_votes_and_five_commits(3, E));
    told
}

/// It leads itself.
fn in_view_4() -> Vec<Told> {
    let mut told = vec![call(0, "propose F on E", propose(F)), call(6, "the liar's vote as one's own", vote(3, 4, D))];
    told.extend(six_votes_and_five_commits(4, F));
    told
}
