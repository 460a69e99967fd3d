//! What accepted calls do: records sent, counters, windows, rules. The readings that decide are named.

mod common;

use common::*;
use oracle::{answer, wire, Block, Certificate, Name, Replica, Timeout, View, Vote, GENESIS};

const LAST: u64 = (1 << 62) - 1;

fn call(replica: &mut Replica, record: &[u8]) -> Vec<u8> {
    accept(replica, &[record.to_vec()])
}

fn senders(output: &[u8]) -> Vec<u16> {
    wire::records(output).map(wire::sender_of).collect()
}

fn certificate(view: u64, number: u8) -> Certificate {
    Certificate::block(View(view), name(number), FOUR)
}

/// View, name and height of each release.
fn releases(output: &[u8]) -> Vec<(u64, Name, u64)> {
    let of_kind_9 = wire::records(output).filter(|record| wire::kind_of(record) == 9);
    of_kind_9.map(|r| (wire::u64_at(r, 8), wire::name_at(r, 16), wire::u64_at(r, 48))).collect()
}

fn four_timeouts(view: u64) -> Vec<Timeout> {
    [0, 1, 3, 4].map(|sender| timeout(sender, view)).to_vec()
}

#[test]
fn a_block_certificate_of_the_view_is_sent_on_with_a_commit() {
    let mut replica = midway();
    let out = call(&mut replica, &certificate_record(5, 10, name(90), FOUR));
    let expected = [certificate_record(0, 10, name(90), FOUR), commit_record(0, 10, name(90))].concat();
    assert_eq!(out, expected);
    assert_eq!(replica.counters.view, View(11));
    assert_eq!(replica.counters.lock, certificate(10, 90));
    assert_eq!(replica.memory.entry.record(), certificate_record(0, 10, name(90), FOUR));
    assert_eq!(replica.memory.commits.row(View(10)).get(0), Some(&name(90)));
}

#[test]
fn no_commit_after_a_timeout() {
    let mut replica = midway();
    replica.timer(View(8), &mut Vec::new()).unwrap();
    let out = call(&mut replica.clone(), &certificate_record(5, 8, name(90), FOUR));
    assert_eq!(kinds(&out), [3]);
    let out = call(&mut replica, &certificate_record(5, 9, name(90), FOUR));
    assert_eq!(kinds(&out), [3, 2]);
}

#[test]
fn a_block_certificate_below_the_view_is_only_adopted() {
    let mut replica = midway();
    let entry = replica.memory.entry.clone();
    let out = call(&mut replica, &certificate_record(5, 7, name(1), FOUR));
    assert!(out.is_empty());
    assert_eq!(replica.counters.lock, certificate(7, 1));
    assert_eq!(replica.counters.view, View(8));
    assert!(replica.memory.entry == entry);
}

#[test]
fn a_timeout_certificate_is_sent_on_and_only_its_safe_certificate_adopted() {
    let mut replica = midway();
    let mut timeouts = four_timeouts(9);
    timeouts[0].certificate = certificate(8, 91);
    timeouts[1].high_vote = Vote { view: View(9), name: name(92) };
    timeouts[2].high_vote = Vote { view: View(9), name: name(92) };
    let out = call(&mut replica, &timeouts_record(5, 9, &timeouts));
    assert_eq!(out, timeouts_record(0, 9, &timeouts));
    assert_eq!(replica.memory.entry.record(), out);
    assert_eq!(replica.counters.view, View(10));
    assert_eq!(replica.counters.lock, certificate(7, SAFE));
    assert_eq!(replica.counters.best_weak, Certificate::weak(View(9), name(92), 0b1010));
    assert_eq!(replica.counters.timed, View(0)); // no timeout is sent
    assert!(replica.memory.timeouts.rows.iter().all(|row| row.given == 0)); // and none is kept
}

#[test]
fn a_timeouts_certificate_is_not_adopted() {
    let mut replica = midway();
    let carrying = Timeout { certificate: certificate(8, 91), ..timeout(2, 8) };
    call(&mut replica, &timeout_record(&carrying));
    assert_eq!(replica.counters.lock, certificate(7, SAFE));
}

#[test]
fn a_proposal_of_the_view_only_adopts_and_votes() {
    let mut replica = six(0);
    call(&mut replica, &certificate_record(3, 7, GENESIS, FOUR));
    let entry = replica.memory.entry.clone();
    let progress = timeouts_record(1, 7, &four_timeouts(7));
    let out = call(&mut replica, &proposal_record(1, 8, &block(8, GENESIS, 1), &progress));
    assert_eq!(out, vote_record(0, 8, name(8)));
    assert!(replica.memory.entry == entry);
    assert_eq!(replica.counters.view, View(8));
    assert_eq!(replica.held(&name(8)), Some(block(8, GENESIS, 1)));
}

#[test]
fn a_proposal_of_a_higher_view_does_all_that_its_certificate_does() {
    let mut replica = midway();
    let on_block = certificate_record(2, 8, name(VOTED), FOUR);
    let out = call(&mut replica.clone(), &proposal_record(2, 9, &block(60, name(VOTED), 4), &on_block));
    assert_eq!((kinds(&out), senders(&out)), (vec![3, 2, 1], vec![0, 0, 0]));

    let on_timeouts = timeouts_record(2, 8, &four_timeouts(8));
    let out = call(&mut replica, &proposal_record(2, 9, &block(60, GENESIS, 1), &on_timeouts));
    assert_eq!((kinds(&out), senders(&out)), (vec![6, 1], vec![0, 0]));
    assert_eq!(replica.counters.view, View(9));
    assert_eq!(replica.counters.high_vote, Vote { view: View(9), name: name(60) });
}

#[test]
fn no_vote_after_a_timeout_but_the_block_is_held() {
    let mut replica = six(0);
    call(&mut replica, &certificate_record(3, 7, GENESIS, FOUR));
    replica.timer(View(8), &mut Vec::new()).unwrap();
    let proposal = proposal_record(1, 8, &block(8, GENESIS, 1), &certificate_record(1, 7, GENESIS, FOUR));
    for _ in 0..3 {
        assert!(call(&mut replica, &proposal).is_empty()); // accepted again each time
    }
    assert_eq!(replica.memory.store.blocks(), [block(8, GENESIS, 1)]);
    assert_eq!(replica.counters.high_vote, Vote::NONE);
}

#[test]
fn propose_builds_on_the_entry_certificate() {
    let mut replica = six(0);
    accept(
        &mut replica,
        &[
            block_record(3, &block(1, GENESIS, 1)),
            timeouts_record(3, 6, &four_timeouts(6)),
            certificate_record(3, 6, name(1), FOUR), // comes later: adopted, but not built on
        ],
    );
    let mut out = Vec::new();
    replica.propose(name(7), &mut out).unwrap();
    let progress = timeouts_record(0, 6, &four_timeouts(6));
    let expected = [proposal_record(0, 7, &block(7, GENESIS, 1), &progress), vote_record(0, 7, name(7))].concat();
    assert_eq!(out, expected);
    assert_eq!(replica.counters.lock, certificate(6, 1));
}

#[test]
fn the_first_leader_builds_on_genesis() {
    let mut replica = six(0);
    let mut out = Vec::new();
    replica.propose(name(7), &mut out).unwrap();
    let progress = certificate_record(0, 0, GENESIS, 0);
    assert_eq!(out[..144], proposal_record(0, 1, &block(7, GENESIS, 1), &progress));
}

#[test]
fn a_timeout_carries_the_higher_of_lock_and_best_weak() {
    let timeout_of = |lock_view: u64, weak_view: u64| {
        let mut replica = midway();
        replica.counters.lock = certificate(lock_view, 1);
        replica.counters.best_weak = Certificate::weak(View(weak_view), name(2), 0b11);
        let mut out = Vec::new();
        replica.timer(View(8), &mut out).unwrap();
        wire::read_timeout(&out)
    };
    assert_eq!(timeout_of(7, 7).certificate, certificate(7, 1));
    assert_eq!(timeout_of(6, 7).certificate, Certificate::weak(View(7), name(2), 0b11));
    assert_eq!(timeout_of(7, 7).high_vote, Vote { view: View(8), name: name(VOTED) });
}

#[test]
fn rule_a_echoes_and_rule_b_forms() {
    let mut replica = midway();
    assert!(call(&mut replica, &timeout_record(&timeout(2, 10))).is_empty());
    let out = call(&mut replica, &timeout_record(&timeout(4, 10))); // f+1 = 2
    assert_eq!((kinds(&out), senders(&out)), (vec![5], vec![0]));
    assert_eq!(replica.counters.timed, View(10));
    let out = call(&mut replica, &timeout_record(&timeout(5, 10))); // with the own one: 4
    assert_eq!((kinds(&out), senders(&out)), (vec![6], vec![0]));
    assert_eq!(wire::Timeouts::of(&out).senders().collect::<Vec<_>>(), [0, 2, 4, 5]);
    assert_eq!(replica.counters.view, View(11));
}

#[test]
fn a_formed_timeout_certificate_does_what_an_accepted_one_does() {
    let voter = |sender| Timeout { high_vote: Vote { view: View(9), name: name(92) }, ..timeout(sender, 9) };
    let mut formed = midway(); // keeps replica 3's timeout for view 9
    let out = accept(&mut formed, &[timeout_record(&voter(1)), timeout_record(&voter(2))]);
    assert_eq!(kinds(&out), [5, 6]); // f+1 are there with the first
    assert_eq!(formed.counters.view, View(10));
    assert_eq!(formed.counters.best_weak, Certificate::weak(View(9), name(92), 0b0110));
    assert_eq!(formed.memory.entry.record(), &out[112..]);

    let mut accepted = midway();
    assert_eq!(call(&mut accepted, &out[112..]), out[112..]);
    accepted.counters.timed = formed.counters.timed;
    assert!(accepted == formed);
}

#[test]
fn rule_c_forms_a_certificate_of_all_who_voted_so() {
    let mut replica = midway(); // own vote and that of replica 3 for (8, block 8)
    accept(&mut replica, &[vote_record(1, 8, name(99)), vote_record(2, 8, name(VOTED))]);
    let out = call(&mut replica, &vote_record(4, 8, name(VOTED)));
    let expected = [certificate_record(0, 8, name(VOTED), 0b01_1101), commit_record(0, 8, name(VOTED))].concat();
    assert_eq!(out, expected);
    assert_eq!(replica.counters.view, View(9));
    // One vote more makes the same certificate, which isn't above the lock.
    assert!(call(&mut replica, &vote_record(5, 8, name(VOTED))).is_empty());
    assert_eq!(replica.counters.lock.signers, 0b01_1101);
}

#[test]
fn fast_and_slow_releases() {
    let row = [(8, name(1), 1), (8, name(SAFE), 2), (8, name(VOTED), 3)];
    let mut replica = midway(); // keeps replica 3's commit; four release
    let commits = [1, 2].map(|sender| commit_record(sender, 8, name(VOTED)));
    assert!(accept(&mut replica, &commits).is_empty());
    assert_eq!(releases(&call(&mut replica, &commit_record(4, 8, name(VOTED)))), row);

    let mut replica = midway(); // keeps the own vote and replica 3's; six release
    let votes = [1, 2, 4].map(|sender| vote_record(sender, 8, name(VOTED)));
    assert_eq!(kinds(&accept(&mut replica, &votes)), [3, 2]);
    assert_eq!(releases(&call(&mut replica, &vote_record(5, 8, name(VOTED)))), row);
    assert_eq!(replica.counters.tip, block(VOTED, name(SAFE), 3));
    assert!(replica.memory.store.is_empty());
}

#[test]
fn a_release_waits_for_the_block_and_drops_the_other_branch() {
    let mut replica = six(0);
    let blocks: Vec<Block> = vec![
        block(1, GENESIS, 1),
        block(2, name(1), 2),
        block(3, name(1), 2),
        block(4, name(3), 3),
        block(5, name(2), 3),
    ];
    let records: Vec<_> = blocks[..3].iter().map(|block| block_record(3, block)).collect();
    accept(&mut replica, &records);
    // Views above the current one decide too; block 4 isn't held yet.
    let commits: Vec<_> = (1..5).map(|sender| commit_record(sender, 4, name(4))).collect();
    assert!(accept(&mut replica, &commits).is_empty());
    accept(&mut replica, &[block_record(3, &blocks[4])]);
    let out = call(&mut replica, &block_record(3, &blocks[3]));
    assert_eq!(releases(&out), [(4, name(1), 1), (4, name(3), 2), (4, name(4), 3)]);
    assert_eq!(replica.counters.tip, blocks[3]);
    assert!(replica.memory.store.is_empty()); // blocks 2 and 5 don't descend from block 4
}

#[test]
fn releases_go_from_the_lowest_view() {
    let mut replica = six(0);
    let chain = [block(1, GENESIS, 1), block(2, name(1), 2)];
    for (view, of) in [(3, 2), (2, 1)] {
        let commits: Vec<_> = (1..5).map(|sender| commit_record(sender, view, name(of))).collect();
        accept(&mut replica, &commits);
    }
    accept(&mut replica.clone(), &[block_record(3, &chain[0])]);
    let first = call(&mut replica, &block_record(3, &chain[0]));
    assert_eq!(releases(&first), [(2, name(1), 1)]);
    let second = call(&mut replica, &block_record(3, &chain[1]));
    assert_eq!(releases(&second), [(3, name(2), 2)]);
}

#[test]
fn what_leaves_a_window_is_dropped() {
    let mut replica = midway();
    assert!(replica.memory.votes.row(View(8)).get(3).is_some());
    call(&mut replica, &certificate_record(5, 11, name(90), FOUR)); // view 12: the window begins at 8
    assert_eq!(answer_to(&mut replica.clone(), &vote_record(3, 8, name(VOTED))), 10);
    call(&mut replica, &certificate_record(5, 12, name(90), FOUR));
    assert_eq!(answer_to(&mut replica.clone(), &vote_record(3, 8, name(VOTED))), 7);
    assert_eq!(answer_to(&mut replica, &vote_record(3, 16, name(VOTED))), 0); // its row was used for view 8
    call(&mut replica, &certificate_record(5, LAST - 5, name(90), FOUR));
    let kept: u32 = replica.memory.votes.rows.iter().map(|row| row.given.count_ones()).sum();
    assert_eq!(kept, 0);
}

#[test]
fn windows_move_by_any_step() {
    for start in 8..16 {
        for step in 1..20 {
            let mut replica = six(0);
            call(&mut replica, &certificate_record(5, start - 1, name(90), FOUR));
            for view in start - 4..=start + 3 {
                let records = [vote_record(3, view, name(9)), commit_record(3, view, name(9))];
                accept(&mut replica, &records);
                if view >= start {
                    call(&mut replica, &timeout_record(&timeout(3, view)));
                }
            }
            let to = start + step;
            call(&mut replica, &certificate_record(5, to - 1, name(90), FOUR));
            for view in to - 4..=to + 3 {
                let kept = view <= start + 3;
                assert_eq!(replica.memory.votes.row(View(view)).get(3).is_some(), kept);
                assert_eq!(replica.memory.commits.row(View(view)).get(3).is_some(), kept);
                if view >= to {
                    assert_eq!(replica.memory.timeouts.row(View(view)).get(3).is_some(), kept);
                }
            }
        }
    }
}

#[test]
fn equal_replicas_keep_the_same() {
    let replica = midway();
    let changes: [fn(&mut Replica); 10] = [
        |r| r.counters.timed = View(1),
        |r| r.memory.votes.row_mut(View(8)).given |= 1 << 4,
        |r| r.memory.votes.row_mut(View(8)).names[3] = name(1),
        |r| r.memory.commits.row_mut(View(8)).given = 0,
        |r| r.memory.commits.row_mut(View(8)).names[3] = name(1),
        |r| r.memory.timeouts.row_mut(View(9)).given = 0,
        |r| r.memory.timeouts.row_mut(View(9)).raw[3][20] = 1,
        |r| r.memory.leaders = six_led(0, &[1, 0, 2, 3, 4, 5]).memory.leaders,
        |r| r.memory.entry.set(&certificate_record(0, 7, name(SAFE), 0b11_1111)),
        |r| r.memory.store.clear(),
    ];
    for (i, change) in changes.iter().enumerate() {
        let mut changed = replica.clone();
        change(&mut changed);
        assert!(changed != replica, "change {i}");
    }
    let mut left_over = replica.clone();
    left_over.memory.votes.row_mut(View(8)).names[4] = name(1);
    left_over.memory.timeouts.row_mut(View(9)).raw[4][20] = 1;
    assert!(left_over == replica);
}

#[test]
fn the_last_view() {
    let mut replica = six(3); // 2^62 mod 6 is 4: replica 3 leads view 2^62
    let out = call(&mut replica, &certificate_record(5, LAST, name(90), FOUR));
    assert_eq!(kinds(&out), [3, 2]);
    assert_eq!(replica.counters.view, View::MAX);
    assert_eq!(replica.leader(View::MAX), 3);
    let mut out = Vec::new();
    assert_eq!(answer(replica.timer(View::MAX, &mut out)), 8);
    assert_eq!(answer(replica.timer(View(LAST), &mut out)), 7);
    assert_eq!(answer(replica.propose(name(1), &mut out)), 15);
    assert_eq!(answer_to(&mut replica, &vote_record(1, LAST, name(90))), 0);
    assert_eq!(answer_to(&mut replica, &commit_record(1, LAST - 3, name(90))), 0);
    assert_eq!(answer_to(&mut replica, &vote_record(1, LAST - 4, name(90))), 7);
    assert_eq!(answer_to(&mut replica, &vote_record(1, LAST + 1, name(90))), 8);
    assert_eq!(answer_to(&mut replica, &timeout_record(&timeout(1, LAST))), 7);
    assert_eq!(answer_to(&mut replica, &timeout_record(&timeout(1, LAST + 1))), 8);
    assert_eq!(answer_to(&mut replica, &timeouts_record(1, LAST, &four_timeouts(LAST))), 7);
    assert_eq!(answer_to(&mut replica, &certificate_record(1, LAST, name(89), FOUR)), 0);
    // adopted
}

#[test]
fn a_weak_certificate_with_a_block_quorum_stays_weak() {
    let mut replica = six(0);
    let mut timeouts = four_timeouts(1);
    timeouts[2].certificate = Certificate::weak(View(1), name(5), 0b11_1111);
    call(&mut replica, &timeouts_record(1, 1, &timeouts));
    assert_eq!(replica.counters.best_weak, Certificate::weak(View(1), name(5), 0b11_1111));
    assert_eq!(replica.counters.lock, Certificate::GENESIS);
}
