//! 02, 2.2: "every k ≥ 0 is taken as long as n is at most 32", "a ring of one box included". What comes up only since then:
//! a cluster of one, rules A and B in one call, and a fast release by the vote that forms the block certificate.

mod common;

use common::*;
use oracle::{
    answer, literal, wire, Block, Certificate, Height, Refusal, Replica, Settings, Timeout, View, Vote, GENESIS,
};

/// How often A, B, C and D run.
type Ran = literal::Ran;

/// Those of more than one replica.
fn with_others() -> Vec<Settings> {
    Settings::all().into_iter().filter(|settings| settings.n() > 1).collect()
}

fn open(settings: Settings, leaders: &[u8]) -> Replica {
    let [f, c, k, n] = [settings.f(), settings.c(), settings.k(), settings.n()].map(u64::from);
    Replica::open(f, c, k, n, 0, leaders).expect("good settings")
}

fn numbers(settings: Settings) -> [u32; 3] {
    [settings.f(), settings.c(), settings.k()]
}

fn release_record(sender: u16, view: u64, block: &Block) -> Vec<u8> {
    record(|out| wire::write_release(out, sender, View(view), block.name, block.height))
}

fn record_ran(replica: &mut Replica, record: &[u8]) -> (Vec<u8>, Ran) {
    let (mut out, mut ran) = (Vec::new(), Ran::default());
    assert_eq!(literal::record(&mut replica.clone(), record, None, &mut out, &mut ran), Ok(out.len()));
    assert_eq!(accept(replica, &[record.to_vec()]), out);
    (out, ran)
}

fn timer_ran(replica: &mut Replica, view: u64) -> (Vec<u8>, Ran) {
    let (mut out, mut ran, mut plain) = (Vec::new(), Ran::default(), Vec::new());
    assert_eq!(literal::timer(&mut replica.clone(), View(view), &mut out, &mut ran), Ok(out.len()));
    assert_eq!(replica.timer(View(view), &mut plain), Ok(out.len()));
    assert_eq!(plain, out);
    (out, ran)
}

fn propose_ran(replica: &mut Replica, number: u8) -> (Vec<u8>, Ran) {
    let (mut out, mut ran, mut plain) = (Vec::new(), Ran::default(), Vec::new());
    assert_eq!(literal::propose(&mut replica.clone(), name(number), None, &mut out, &mut ran), Ok(out.len()));
    assert_eq!(replica.propose(name(number), &mut plain), Ok(out.len()));
    assert_eq!(plain, out);
    (out, ran)
}

/// The settings that 01 gives as taken and refused, and those that 02 speaks of.
#[test]
fn the_bound_is_01s() {
    let above = |(f, c, k)| Settings::new(f, c, k).expect("good settings").is_above_bound();
    assert!([(1, 1, 0), (2, 2, 2), (7, 5, 0), (2, 0, 0), (0, 4, 0), (0, 3, 0)].into_iter().all(|one| !above(one)));
    assert!([(2, 0, 1), (1, 2, 2), (0, 0, 0), (1, 1, 1), (1, 0, 0), (0, 3, 1)].into_iter().all(above));
    assert_eq!(Settings::all().into_iter().filter(|settings| !settings.is_above_bound()).count(), 511);
}

// ---------------------------------------------------------------- a cluster of one

fn one() -> Replica {
    open(Settings::new(0, 0, 0).expect("a cluster of one"), &[0])
}

/// All that a cluster of one writes for a block in a view: proposal, vote, block certificate, commit, release.
fn decided_alone(view: u64, block: &Block, progress: &[u8]) -> Vec<u8> {
    [
        proposal_record(0, view, block, progress),
        vote_record(0, view, block.name),
        certificate_record(0, view, block.name, 1),
        commit_record(0, view, block.name),
        release_record(0, view, block),
    ]
    .concat()
}

#[test]
fn one_replica_decides_what_it_proposes() {
    let mut replica = one();
    let first = block(1, GENESIS, 1);
    let (out, ran) = propose_ran(&mut replica, 1);
    assert_eq!(out, decided_alone(1, &first, &certificate_record(0, 0, GENESIS, 0)));
    assert_eq!((kinds(&out), ran), (vec![7, 1, 3, 2, 9], [0, 0, 1, 1]));
    let counters = replica.counters;
    assert_eq!((counters.view, counters.timed, counters.tip), (View(2), View(0), first));
    assert_eq!(counters.high_vote, Vote { view: View(1), name: name(1) });
    assert_eq!(counters.lock, Certificate::block(View(1), name(1), 1));
    assert!(replica.memory.store.is_empty());

    let second = block(2, name(1), 2);
    let (out, _) = propose_ran(&mut replica, 2);
    assert_eq!(out, decided_alone(2, &second, &certificate_record(0, 1, name(1), 1)));
    assert_eq!((replica.counters.view, replica.counters.tip), (View(3), second));
}

/// Its timer sets timed by itself, so A has nothing to do; B forms the certificate of its own timeout.
#[test]
fn one_replica_times_out_alone() {
    let mut replica = one();
    let timeouts = timeouts_record(0, 1, &[timeout(0, 1)]);
    let (out, ran) = timer_ran(&mut replica, 1);
    assert_eq!(out, [timeout_record(&timeout(0, 1)), timeouts.clone()].concat());
    assert_eq!((kinds(&out), ran), (vec![5, 6], [0, 1, 0, 0]));
    assert_eq!((replica.counters.view, replica.counters.timed), (View(2), View(1)));
    assert_eq!(replica.memory.entry.record(), timeouts);
    assert_eq!(answer(replica.timer(View(1), &mut Vec::new())), 7);

    let (out, _) = propose_ran(&mut replica, 7);
    assert_eq!(out, decided_alone(2, &block(7, GENESIS, 1), &timeouts));

    // The next timeout carries the lock and gives the high vote: the block certificate is safe, not the weak one built.
    let carrying = Timeout {
        high_vote: Vote { view: View(2), name: name(7) },
        certificate: Certificate::block(View(2), name(7), 1),
        ..timeout(0, 3)
    };
    let timeouts = timeouts_record(0, 3, &[carrying]);
    assert_eq!(timer_ran(&mut replica, 3).0, [timeout_record(&carrying), timeouts.clone()].concat());
    assert_eq!(replica.counters.best_weak.view, View(0));
    let (out, _) = propose_ran(&mut replica, 8);
    assert_eq!(out, decided_alone(4, &block(8, name(7), 2), &timeouts));
    assert_eq!(replica.counters.tip.height, Height(2));
}

/// Own number and numbers from n on are all that there is: certificates and blocks alone are taken.
#[test]
fn one_replica_has_nobody_to_hear_from() {
    let refused = |record: &[u8]| answer_to(&mut one(), record);
    for sender in [0, 1] {
        assert_eq!(refused(&vote_record(sender, 1, name(1))), 6);
        assert_eq!(refused(&commit_record(sender, 1, name(1))), 6);
        assert_eq!(refused(&timeout_record(&timeout(sender, 1))), 6);
        let progress = certificate_record(sender, 0, GENESIS, 0);
        let by_itself = [6, 5][usize::from(sender)]; // an inner sender ≥ n comes first
        assert_eq!(refused(&proposal_record(sender, 1, &block(1, GENESIS, 1), &progress)), by_itself);
    }
    assert_eq!(refused(&certificate_record(0, 1, name(1), 0b10)), 5);
    assert_eq!(refused(&certificate_record(0, 1, name(1), 0)), 9);
    assert_eq!(refused(&timeouts_record(0, 1, &[timeout(0, 1), timeout(1, 1)])), 5);
    assert_eq!(refused(&timeouts_record(0, 1, &[])), 9);

    let mut replica = one();
    let first = block(1, GENESIS, 1);
    assert!(accept(&mut replica, &[block_record(0, &first)]).is_empty());
    let out = accept(&mut replica, &[certificate_record(0, 1, name(1), 1)]);
    let expected =
        [certificate_record(0, 1, name(1), 1), commit_record(0, 1, name(1)), release_record(0, 1, &first)].concat();
    assert_eq!(out, expected); // its own commit is enough
    let timeouts = timeouts_record(0, 5, &[timeout(0, 5)]);
    assert_eq!(accept(&mut replica, std::slice::from_ref(&timeouts)), timeouts);
    assert_eq!(replica.counters.view, View(6));
}

/// View 2^62 is the last one, alone too.
#[test]
fn one_replica_comes_to_the_last_view() {
    let mut replica = one();
    accept(&mut replica, &[certificate_record(0, View::MAX.0 - 2, GENESIS, 1)]);
    let (out, _) = timer_ran(&mut replica, View::MAX.0 - 1);
    assert_eq!(kinds(&out), [5, 6]);
    assert_eq!(replica.counters.view, View::MAX);
    assert_eq!(replica.timer(View::MAX, &mut Vec::new()), Err(Refusal::ViewAbove));
    assert_eq!(replica.propose(name(1), &mut Vec::new()), Err(Refusal::Turn));
}

// ---------------------------------------------------------------- A and B in one call

/// Of f+1 timeouts by others the last one makes the replica send its own, by A. B forms at once where these f+2 are
/// n−f−c, that is where f+c+k is 1: in three clusters.
#[test]
fn a_and_b_in_one_call() {
    let mut both = Vec::new();
    for settings in with_others() {
        let mut replica = open(settings, &[0]);
        let others: Vec<Timeout> = (1..=settings.f() as u16 + 1).map(|sender| timeout(sender, 1)).collect();
        let (last, before) = others.split_last().expect("f+1 of them");
        for timeout in before {
            assert_eq!(record_ran(&mut replica, &timeout_record(timeout)), (vec![], [0; 4]));
        }
        let (out, ran) = record_ran(&mut replica, &timeout_record(last));
        let own = timeout_record(&timeout(0, 1));
        assert_eq!(replica.counters.timed, View(1));
        if ran == [1, 1, 0, 0] {
            let all = [vec![timeout(0, 1)], others].concat();
            assert_eq!(out, [own, timeouts_record(0, 1, &all)].concat());
            assert_eq!(replica.counters.view, View(2));
            both.push(numbers(settings));
        } else {
            assert_eq!((out, ran), (own, [1, 0, 0, 0]));
            assert_eq!(replica.counters.view, View(1));
        }
    }
    assert_eq!(both, [[0, 0, 1], [0, 1, 0], [1, 0, 0]]);
}

// ---------------------------------------------------------------- C and D in one call

/// A fast release takes at least a block quorum of votes, and just as many where f = 0 and c = 0, or f = 0, c = 1 and k
/// is odd.
fn released_by_a_block_quorum() -> Vec<[u32; 3]> {
    let without_c = (0..32).map(|k| [0, 0, k]);
    let with_one = (1..30).step_by(2).map(|k| [0, 1, k]);
    without_c.chain(with_one).collect()
}

#[test]
fn settings_in_which_a_block_quorum_releases() {
    let every = Settings::all();
    assert!(every.iter().all(|settings| settings.fast_quorum() >= settings.block_quorum()));
    let equal = every.into_iter().filter(|settings| settings.fast_quorum() == settings.block_quorum());
    let equal: Vec<[u32; 3]> = equal.map(numbers).collect();
    assert_eq!(equal, released_by_a_block_quorum());
    assert_eq!(equal.len(), 32 + 15);
}

/// A replica that voted in view 1 and timed out then sends no commit, so votes alone release: the one that forms the
/// certificate in those clusters, a later one in all others.
#[test]
fn c_and_d_by_one_vote() {
    let first = block(1, GENESIS, 1);
    let mut by_one_vote = vec![[0, 0, 0]]; // which has nobody to hear from
    for settings in with_others() {
        let mut replica = open(settings, &[1]);
        let progress = certificate_record(1, 0, GENESIS, 0);
        let voted = accept(&mut replica, &[proposal_record(1, 1, &first, &progress)]);
        assert_eq!(voted, vote_record(0, 1, name(1)));
        assert_eq!(timer_ran(&mut replica, 1).1, [0; 4]);
        for votes in 2..=settings.fast_quorum() {
            let (out, ran) = record_ran(&mut replica, &vote_record(votes as u16 - 1, 1, name(1)));
            let mut expected = Vec::new();
            if votes == settings.block_quorum() {
                expected.extend(certificate_record(0, 1, name(1), (1 << votes) - 1));
            }
            if votes == settings.fast_quorum() {
                expected.extend(release_record(0, 1, &first));
            }
            assert_eq!(out, expected, "{settings:?}");
            if ran == [0, 0, 1, 1] {
                by_one_vote.push(numbers(settings));
            }
        }
        assert_eq!(replica.counters.tip, first, "{settings:?}");
    }
    assert_eq!(by_one_vote, released_by_a_block_quorum());
}

/// Without crashed and Byzantine replicas one commit releases, in the cluster of 32 too: the own one, or another's.
#[test]
fn one_commit_releases() {
    for k in 0..32 {
        let settings = Settings::new(0, 0, k).expect("good settings");
        let first = block(1, GENESIS, 1);
        let mut replica = open(settings, &[0]);
        accept(&mut replica, &[block_record(0, &first)]);
        if k > 0 {
            let out = accept(&mut replica.clone(), &[commit_record(1, 1, name(1))]);
            assert_eq!(out, release_record(0, 1, &first));
        }
        let signers = settings.everyone();
        let out = accept(&mut replica, &[certificate_record(0, 1, name(1), signers)]);
        assert_eq!(kinds(&out), [3, 2, 9]);
        assert_eq!(replica.counters.tip, first);
    }
}
