//! Every refusal of every kind, and 01's order: a record that breaks two rules is refused by the earlier. Each is judged again
//! with contents, by 02, 2.5: 16 comes before them, and 17 between 9 and 10.

mod common;

use common::breaks::*;
use common::*;
use oracle::{answer, wire, Certificate, Height, Refusal, Replica, Timeout, View, Vote, CONTENTS, GENESIS};

fn refused(replica: &Replica, record: &[u8], number: u16, what: &str) {
    refused_call(replica, number, what, |replica, out| replica.record(record, out));
    let with = |record: &[u8], contents: &[u8], number| {
        let what = format!("{what}, {} bytes of contents", contents.len());
        refused_call(replica, number, &what, |replica, out| replica.record_with(record, contents, out));
    };
    with(record, &[0; CONTENTS + 1], 16);
    let by_name = number >= 10 && wire::block_of(record).is_some();
    for contents in [&b""[..], b"of no block here"] {
        with(record, contents, if by_name { 17 } else { number });
    }
    if by_name && number >= 12 {
        let mut record = record.to_vec();
        rename(&mut record, b"right");
        with(&record, b"right", number);
    }
}

fn refused_call(
    replica: &Replica,
    number: u16,
    what: &str,
    call: impl FnOnce(&mut Replica, &mut Vec<u8>) -> oracle::Reply,
) {
    let mut after = replica.clone();
    let mut out = vec![7; 3];
    let reply = call(&mut after, &mut out);
    assert_eq!(answer(reply), number, "{what}");
    assert!(after == *replica && out == [7; 3], "{what}: a refused call changes nothing");
}

/// The record is accepted with these contents, and does what it does without.
fn accepted_with(replica: &Replica, record: &[u8], contents: &[u8]) {
    let (mut plain, mut with) = (replica.clone(), replica.clone());
    let (mut plain_out, mut with_out) = (Vec::new(), Vec::new());
    let written = plain.record(record, &mut plain_out).expect("accepted without contents");
    assert_eq!(with.record_with(record, contents, &mut with_out), Ok(written));
    assert!(with == plain && with_out == plain_out);
}

/// The record is accepted; with one break it is refused by its number; with two breaks by the lower number.
fn check_breaks(replica: &Replica, good: &[u8], breaks: &[Break]) {
    assert!(replica.clone().record(good, &mut Vec::new()).is_ok(), "the record without a break");
    let mut named = good.to_vec();
    for contents in [&b""[..], b"contents", &[9; CONTENTS]] {
        if wire::block_of(good).is_some() {
            rename(&mut named, contents);
            refused_call(replica, 17, "contents of another", |replica, out| replica.record_with(good, contents, out));
        }
        accepted_with(replica, &named, contents);
    }
    check_order(replica, good, breaks);
}

fn check_order(replica: &Replica, good: &[u8], breaks: &[Break]) {
    for_each_break(good, breaks, |record, number, what| refused(replica, record, number, what));
}

/// Breaks that every record of a fixed length has.
const COMMON: [Break; 4] = [
    (3, lengthen),
    (3, lengthen_both),
    (3, |r| put_u32(r, 0, 7)),
    (6, |r| put_u16(r, 6, 6)), // sender ≥ n
];

fn with_common(more: &[Break]) -> Vec<Break> {
    [&COMMON, more].concat()
}

#[test]
fn short_slices_and_foreign_kinds() {
    let replica = midway();
    let vote = vote_record(2, 8, name(VOTED));
    for length in 0..vote.len() {
        refused(&replica, &vote[..length], 3, "cut");
    }
    for kind in [0, 4, 9, 10, 11, 12, 13, 256 + 1, u16::MAX] {
        let mut foreign = vote.clone();
        put_u16(&mut foreign, 4, kind);
        refused(&replica, &foreign, 4, "foreign kind");
        lengthen_both(&mut foreign);
        refused(&replica, &foreign, 4, "a kind that 4 turns away has no length of its own");
        lengthen(&mut foreign);
        refused(&replica, &foreign, 3, "but its length field must be the slice's");
        put_u32(&mut foreign, 0, 8);
        refused(&replica, &foreign[..8], 4, "a header alone");
    }
}

#[test]
fn votes_and_commits() {
    let breaks = with_common(&[
        (5, |r| put_name(r, 16, 0)),
        (6, |r| put_u16(r, 6, 0)), // own number
        (7, |r| put_u64(r, 8, 3)), // the window begins at 4
        (7, |r| put_u64(r, 8, 0)),
        (8, |r| put_u64(r, 8, 12)), // and ends at 11
        (8, |r| put_u64(r, 8, ABOVE)),
        (8, |r| put_u64(r, 8, u64::MAX)),
        (10, |r| {
            put_u16(r, 6, 3);
            put_u64(r, 8, 8);
            put_name(r, 16, VOTED);
        }),
        (11, |r| {
            put_u16(r, 6, 3);
            put_u64(r, 8, 8);
            put_name(r, 16, 99);
        }),
    ]);
    for view in [4, 8, 11] {
        check_breaks(&midway(), &vote_record(2, view, name(VOTED)), &breaks);
        check_breaks(&midway(), &commit_record(2, view, name(VOTED)), &breaks);
    }
}

#[test]
fn block_certificates() {
    let breaks = with_common(&[
        (5, |r| put_u64(r, 48, FOUR | 1 << 6)),
        (5, |r| put_u64(r, 48, FOUR | 1 << 63)),
        (8, |r| put_u64(r, 8, ABOVE)),
        (9, |r| put_u64(r, 48, 0b0111)),
        (9, |r| {
            put_u64(r, 8, 0); // of view 0 with a name
            put_name(r, 16, 1);
        }),
        (9, |r| {
            put_u64(r, 8, 0);
            put_name(r, 16, 0);
            put_u64(r, 48, FOUR); // the genesis certificate with signers
        }),
        (10, |r| r[8..56].fill(0)), // the genesis certificate
        (10, |r| {
            put_u64(r, 8, 7);
            put_name(r, 16, SAFE);
            put_u64(r, 48, 0b11_1111); // the lock's view and name, other signers
        }),
        (10, |r| {
            put_u64(r, 8, 7);
            put_name(r, 16, SAFE + 1);
            put_u64(r, 48, FOUR);
        }),
        (10, |r| {
            put_u64(r, 8, 6);
            put_u64(r, 48, FOUR);
        }),
    ]);
    check_breaks(&midway(), &certificate_record(0, 8, name(VOTED), FOUR), &breaks); // own number is fine
    check_breaks(&midway(), &certificate_record(5, 7, name(SAFE - 1), FOUR), &breaks); // smaller name: above the lock
    check_breaks(&midway(), &certificate_record(5, ABOVE - 1, GENESIS, FOUR), &breaks);
}

fn good_timeout() -> Timeout {
    Timeout {
        sender: 2,
        view: View(9),
        high_vote: Vote { view: View(9), name: name(50) },
        certificate: Certificate::weak(View(9), name(51), 0b11),
    }
}

#[test]
fn timeouts() {
    let breaks = with_common(&[
        (4, |r| put_u16(r, 56, 5)),
        (4, |r| put_u16(r, 56, 0)),
        (5, |r| r[58] = 1),
        (5, |r| r[63] = 1),
        (5, |r| put_vote(r, 16, 0, 1)), // half-empty
        (5, |r| put_vote(r, 16, 1, 0)),
        (5, |r| put_u64(r, 104, 0b100_0011)),
        (6, |r| put_u16(r, 6, 0)), // own number
        (7, |r| put_u64(r, 8, 7)),
        (7, |r| put_u64(r, 8, 0)),
        (8, |r| put_u64(r, 8, 12)),
        (8, |r| put_u64(r, 8, ABOVE)),
        (9, |r| put_vote(r, 16, 12, 1)),                 // high vote above
        (9, |r| put_certificate(r, 56, 3, 12, 1, FOUR)), // certificate above
        (9, |r| put_certificate(r, 56, 4, 1, 1, 0b1)),   // too few for a weak one
        (9, |r| put_certificate(r, 56, 3, 1, 1, 0b111)), // too few for a block certificate
        (9, |r| put_certificate(r, 56, 3, 0, 1, FOUR)),  // another certificate of view 0
        (9, |r| put_certificate(r, 56, 4, 0, 0, 0)),     // a weak one that is else the genesis certificate
        (10, |r| {
            let kept = timeout_record(&timeout(3, 9));
            r.splice(.., kept);
        }),
        (11, |r| {
            let kept = timeout_record(&timeout(3, 9));
            r.splice(.., kept);
            put_vote(r, 16, 1, 1);
        }),
    ]);
    for view in [9, 10, 11] {
        let good = timeout_record(&Timeout { view: View(view), ..good_timeout() });
        check_breaks(&midway(), &good, &breaks);
    }
}

fn good_timeouts(view: u64, senders: [u16; 4]) -> Vec<Timeout> {
    senders.map(|sender| timeout(sender, view)).to_vec()
}

#[test]
fn timeout_certificates() {
    let mut breaks = TIMEOUT_CERTIFICATE_BREAKS.to_vec();
    breaks.push((7, |r| set_timeouts_view(r, 7)));
    for sender in [0, 5] {
        for view in [8, 100, ABOVE - 1] {
            let good = timeouts_record(sender, view, &good_timeouts(view, [0, 1, 3, 4]));
            check_breaks(&midway(), &good, &breaks);
        }
    }
}

#[test]
fn timeout_certificates_of_any_count() {
    let replica = midway();
    for count in 0..=33 {
        let timeouts: Vec<_> = (0..count).map(|sender| timeout(sender, 8)).collect();
        let record = timeouts_record(3, 8, &timeouts);
        let expected = match count {
            0..=3 => 9,
            4..=6 => 0,
            _ => 5, // senders can't ascend below n
        };
        assert_eq!(answer_to(&mut replica.clone(), &record), expected, "{count} timeouts");
    }
    let mut largest = Replica::open(7, 5, 0, 32, 31, &[0]).unwrap();
    let timeouts: Vec<_> = (0..33).map(|sender| timeout(sender, 1)).collect();
    assert_eq!(answer_to(&mut largest, &timeouts_record(3, 1, &timeouts)), 5);
    assert_eq!(answer_to(&mut largest, &timeouts_record(3, 1, &timeouts[..32])), 0);
}

/// View, and its leader as sender, outside and inside.
fn set_view(record: &mut [u8], view: u64) {
    put_u64(record, 8, view);
    set_senders(record, (view.wrapping_sub(1) % 6) as u16);
}

fn set_senders(record: &mut [u8], sender: u16) {
    put_u16(record, 6, sender);
    if record.len() >= 96 {
        put_u16(record, 94, sender);
    }
}

/// Of both kinds of progress certificate.
const PROPOSAL_BREAKS: [Break; 24] = [
    (3, lengthen),
    (3, lengthen_both),
    (3, |r| r.truncate(87)),
    (3, |r| {
        r.truncate(88); // no inner record
        put_u32(r, 0, 88);
    }),
    (3, |r| {
        r.truncate(95); // an inner record of seven bytes
        put_u32(r, 0, 95);
    }),
    (3, |r| put_u32(r, 88, 55)),
    (4, |r| put_u16(r, 92, 1)),
    (4, |r| put_u16(r, 92, 5)),
    (4, |r| put_u16(r, 92, 7)),
    (5, |r| put_name(r, 16, 0)),
    (5, |r| {
        put_u16(r, 6, 2);
        put_u16(r, 94, 5); // another inner sender
    }),
    (5, |r| set_senders(r, 6)), // sender ≥ n is 5 by its inner sender
    (6, |r| {
        put_u64(r, 8, 13); // a view that replica 0 leads
        set_senders(r, 0); // own number
    }),
    (6, |r| {
        put_u64(r, 8, 9);
        set_senders(r, 3); // not its leader
    }),
    (6, |r| {
        put_u64(r, 8, ABOVE);
        set_senders(r, if (ABOVE - 1) % 6 == 2 { 3 } else { 2 });
    }),
    (7, |r| set_view(r, 2)),
    (7, |r| {
        put_u64(r, 8, 0); // no leader is asked
        set_senders(r, 4);
    }),
    (8, |r| set_view(r, ABOVE + 2)), // led by replica 5
    (8, |r| set_view(r, u64::MAX)),  // led by replica 2
    (9, |r| set_view(r, 10)),        // inner view not v−1
    (11, |r| put_name(r, 16, 1)),    // a held name: another parent
    (13, |r| put_name(r, 48, 77)),   // a parent that isn't the safe block, held or not
    (13, |r| put_name(r, 48, 1)),
    (13, |r| put_u64(r, 80, 9)),
];

/// The view of an inner timeout certificate, its timeouts and the two high votes that `proposal_on_timeouts` has.
fn set_inner_view(record: &mut [u8], view: u64) {
    set_timeouts_view(&mut record[88..], view);
    put_u64(record, 88 + 24 + 16, view);
    put_u64(record, 88 + SECOND + 16, view);
}

fn proposal_on_certificate() -> Vec<u8> {
    proposal_record(2, 9, &block(60, name(VOTED), 4), &certificate_record(2, 8, name(VOTED), FOUR))
}

/// Its safe block is block 8 by a weak certificate built of two high votes.
fn proposal_on_timeouts() -> Vec<u8> {
    let mut timeouts = good_timeouts(8, [0, 1, 3, 4]);
    for timeout in &mut timeouts[..2] {
        timeout.high_vote = Vote { view: View(8), name: name(VOTED) };
    }
    proposal_record(2, 9, &block(60, name(VOTED), 4), &timeouts_record(2, 8, &timeouts))
}

#[test]
fn proposals_on_a_block_certificate() {
    let own_breaks: [Break; 6] = [
        (5, |r| put_u64(r, 136, FOUR | 1 << 6)),
        (9, |r| put_u64(r, 96, 5)),
        (9, |r| put_u64(r, 136, 1)),
        (10, |r| {
            set_view(r, 8);
            put_name(r, 16, VOTED);
            put_u64(r, 96, 7);
        }),
        (11, |r| {
            set_view(r, 8); // another name is voted for in this view
            put_u64(r, 96, 7);
        }),
        (12, |r| put_name(r, 104, 77)), // the safe block isn't held, and parent is something else
    ];
    let mut breaks = [&PROPOSAL_BREAKS[..], &own_breaks].concat();
    check_breaks(&midway(), &proposal_on_certificate(), &breaks);
    breaks.push((14, |_| ()));
    check_order(&midway_full(), &proposal_on_certificate(), &breaks);
}

#[test]
fn proposals_on_a_timeout_certificate() {
    let own_breaks: [Break; 11] = [
        (3, |r| {
            put_u16(r, 92, 6); // another kind would have no length of its own
            put_u16(r, 88 + 16, 3);
        }),
        (3, |r| {
            put_u16(r, 92, 6);
            put_u32(r, 88 + SECOND, 48);
        }),
        (4, |r| put_u16(r, 88 + SECOND + 4, 2)),
        (4, |r| put_u16(r, 88 + SECOND + 56, 5)),
        (5, |r| r[88 + 20] = 1),
        (5, |r| put_u64(r, 88 + SECOND + 8, 4)),
        (9, |r| set_inner_view(r, 5)),
        (9, |r| put_u16(r, 88 + SECOND + 56, 4)),
        (10, |r| {
            set_view(r, 8);
            put_name(r, 16, VOTED);
            set_inner_view(r, 7);
        }),
        (11, |r| {
            set_view(r, 8); // another name is voted for in this view
            set_inner_view(r, 7);
        }),
        (12, |r| put_u64(r, 88 + SECOND + 16, 7)), // one high vote left: the safe block is genesis, which isn't held
    ];
    let mut breaks = [&PROPOSAL_BREAKS[..], &own_breaks].concat();
    let mut replica = midway();
    release_block_one(&mut replica);
    check_breaks(&replica, &proposal_on_timeouts(), &breaks);
    let mut full = midway_full();
    release_block_one(&mut full);
    fill(&mut full);
    breaks.push((14, |_| ()));
    check_order(&full, &proposal_on_timeouts(), &breaks);
}

/// Moves the tip to block 1, so that genesis isn't held any more.
fn release_block_one(replica: &mut Replica) {
    let commits: Vec<_> = (1..5).map(|sender| commit_record(sender, 6, name(1))).collect();
    accept(replica, &commits);
    assert_eq!(replica.counters.tip, block(1, GENESIS, 1));
}

fn fill(replica: &mut Replica) {
    let mut number = 1000u64;
    while !replica.memory.store.is_full() {
        number += 1;
        let mut child = block(0, name(SAFE), 3);
        child.name[..8].copy_from_slice(&number.to_le_bytes());
        accept(replica, &[block_record(3, &child)]);
    }
}

#[test]
fn blocks() {
    let mut breaks = with_common(&[
        (5, |r| put_name(r, 8, 0)),
        (10, |r| {
            put_name(r, 8, VOTED);
            put_name(r, 40, SAFE);
            put_u64(r, 72, 3);
        }),
        (11, |r| {
            put_name(r, 8, VOTED);
            put_name(r, 40, SAFE);
            put_u64(r, 72, 4);
        }),
        (11, |r| {
            put_name(r, 8, VOTED);
            put_name(r, 40, 1);
            put_u64(r, 72, 3);
        }),
        (12, |r| put_name(r, 40, 77)),
        (13, |r| put_u64(r, 72, 3)),
        (13, |r| put_u64(r, 72, 5)),
        (13, |r| put_u64(r, 72, 0)),
        (13, |r| put_u64(r, 72, ABOVE + 1)),
    ]);
    check_breaks(&midway(), &block_record(0, &block(60, name(VOTED), 4)), &breaks); // own number is fine
    breaks.push((14, |_| ()));
    check_order(&midway_full(), &block_record(5, &block(60, name(VOTED), 4)), &breaks);
}

#[test]
fn the_tip_is_held_and_its_parent_is_not() {
    let mut replica = midway();
    release_block_one(&mut replica);
    refused(&replica, &block_record(2, &block(1, GENESIS, 1)), 10, "the tip again");
    refused(&replica, &block_record(2, &block(1, name(SAFE), 1)), 11, "the tip's name with another parent");
    refused(&replica, &block_record(2, &block(60, GENESIS, 1)), 12, "genesis isn't held");
    assert_eq!(answer_to(&mut replica, &block_record(2, &block(60, name(1), 2))), 0);
}

#[test]
fn heights_end_at_2_62() {
    let mut replica = six(0);
    replica.counters.tip = block(1, GENESIS, ABOVE - 1);
    assert_eq!(answer_to(&mut replica, &block_record(2, &block(2, name(1), ABOVE))), 0);
    refused(&replica, &block_record(2, &block(3, name(2), ABOVE + 1)), 13, "height over 2^62");
    replica.memory.store.clear();
    replica.counters.tip.height = Height(u64::MAX);
    refused(&replica, &block_record(2, &block(3, name(1), 0)), 13, "no height overflows");
}

#[test]
fn timer_and_propose_in_order() {
    let mut replica = midway();
    let mut out = Vec::new();
    let mut timer = |replica: &mut Replica, view| answer(replica.timer(View(view), &mut out));
    for (view, number) in [(0, 7), (7, 7), (9, 8), (ABOVE, 8), (u64::MAX, 8), (8, 0), (8, 10), (7, 7), (9, 8)] {
        assert_eq!(timer(&mut replica, view), number, "timer {view}");
    }
}

/// Replica 0 in view 7, which it leads, entered by a certificate for this name.
fn leader(entered_by: u8) -> Replica {
    let mut replica = six(0);
    accept(&mut replica, &[block_record(3, &block(1, GENESIS, 1)), certificate_record(3, 6, name(entered_by), FOUR)]);
    replica
}

/// The answer to propose. With contents that are too long it is 16, and with others the same or 17 before 14.
fn propose_answer(replica: &Replica, number: u8) -> u16 {
    let (mut after, mut out) = (replica.clone(), Vec::new());
    let reply = after.propose(name(number), &mut out);
    assert!(reply.is_ok() || (after == *replica && out.is_empty()));
    let refused_with = |contents: &[u8], refusal| {
        let call = |replica: &mut Replica, out: &mut Vec<u8>| replica.propose_with(name(number), contents, out);
        refused_call(replica, refusal, "propose", call);
    };
    let plain = answer(reply);
    refused_with(&[0; CONTENTS + 1], 16);
    for contents in [&b""[..], b"of no block here"] {
        refused_with(contents, if matches!(plain, 0 | 14) { 17 } else { plain });
    }
    plain
}

#[test]
fn propose() {
    let propose = propose_answer;
    let good = leader(1);
    assert_eq!(propose(&good, 60), 0);
    assert_eq!(propose(&good, 0), 5);
    assert_eq!(propose(&good, 1), 11);

    let unknown = leader(77);
    assert_eq!((propose(&unknown, 60), propose(&unknown, 1), propose(&unknown, 0)), (12, 11, 5));

    let mut full = leader(1);
    while full.memory.store.push(block(99, name(1), 2)) {}
    assert_eq!((propose(&full, 60), propose(&full, 99), propose(&full, 0)), (14, 11, 5));
    let mut full_unknown = leader(77);
    while full_unknown.memory.store.push(block(99, name(1), 2)) {}
    assert_eq!(propose(&full_unknown, 60), 12);

    let mut high = full.clone();
    high.memory.store.clear();
    high.counters.tip = block(1, GENESIS, ABOVE);
    assert_eq!(propose(&high, 60), 13);
    while high.memory.store.push(block(99, name(1), 2)) {}
    assert_eq!(propose(&high, 60), 13);

    let other = six(1);
    let mut timed = leader(77);
    timed.timer(View(7), &mut Vec::new()).unwrap();
    let mut voted = leader(1);
    voted.propose(name(60), &mut Vec::new()).unwrap();
    for out_of_turn in [&other, &timed, &voted] {
        assert_eq!((propose(out_of_turn, 0), propose(out_of_turn, 1), propose(out_of_turn, 61)), (15, 15, 15));
    }
}

#[test]
fn a_state_that_breaks_a_rule_is_refused_2() {
    let break_state: [fn(&mut Replica); 6] = [
        |r| r.counters.view = View(0),
        |r| r.counters.view = View(ABOVE + 1),
        |r| r.memory.entry.set(&[]),
        |r| r.memory.entry.set(&vote_record(1, 1, name(1))),
        |r| r.memory.entry.set(&[&certificate_record(1, 1, name(1), 0)[..], &[0]].concat()),
        |r| r.memory.entry.set(&timeouts_record(1, 1, &[timeout(1, 1); 7])),
    ];
    for change in break_state {
        let mut replica = midway();
        change(&mut replica);
        let before = replica.clone();
        let mut out = Vec::new();
        assert_eq!(replica.record(&[], &mut out), Err(Refusal::Regions));
        assert_eq!(replica.timer(View(0), &mut out), Err(Refusal::Regions));
        assert_eq!(replica.propose(GENESIS, &mut out), Err(Refusal::Regions));
        for contents in [&[][..], &[0; CONTENTS + 1]] {
            assert_eq!(replica.record_with(&[], contents, &mut out), Err(Refusal::Regions));
            assert_eq!(replica.propose_with(GENESIS, contents, &mut out), Err(Refusal::Regions));
        }
        assert!(replica == before && out.is_empty());
    }
}
