//! Each sentence of 02, 2.5 on contents that come with a call. The order of refusals, with each two that can meet, is in
//! `refusals.rs`.

mod common;

use common::*;
use oracle::{answer, Block, Faults, Height, Misreading, Name, Replica, View, CONTENTS, GENESIS};

const SHORT: &[u8] = b"a container";

/// What a call answers; a refused one changes nothing.
fn judged(replica: &Replica, call: impl FnOnce(&mut Replica, &mut Vec<u8>) -> oracle::Reply) -> u16 {
    let (mut after, mut out) = (replica.clone(), Vec::new());
    let reply = call(&mut after, &mut out);
    assert!(reply == Ok(out.len()) || (reply.is_err() && after == *replica && out.is_empty()));
    answer(reply)
}

fn record_answer(replica: &Replica, record: &[u8], contents: &[u8]) -> u16 {
    judged(replica, |replica, out| replica.record_with(record, contents, out))
}

fn propose_answer(replica: &Replica, name: Name, contents: &[u8]) -> u16 {
    judged(replica, |replica, out| replica.propose_with(name, contents, out))
}

fn block_answer(replica: &Replica, block: &Block, contents: &[u8]) -> u16 {
    record_answer(replica, &block_record(3, block), contents)
}

/// A proposal of view 1 by its leader, replica 0.
fn first_proposal(block: &Block) -> Vec<u8> {
    proposal_record(0, 1, block, &certificate_record(0, 0, GENESIS, 0))
}

/// "the contents, which have 0 to 4,096 bytes": with each length a block, a proposal and a propose call.
#[test]
fn contents_of_any_length_that_is_taken() {
    for length in [0, 1, 15, 16, 23, 24, 63, 64, 1_000, CONTENTS - 1, CONTENTS] {
        let contents = vec![0xC5; length];
        let block = named(GENESIS, 1, &contents);
        assert_eq!(block_answer(&six(1), &block, &contents), 0, "{length} bytes");
        assert_eq!(record_answer(&six(1), &first_proposal(&block), &contents), 0, "{length} bytes");
        assert_eq!(propose_answer(&six(0), block.name, &contents), 0, "{length} bytes");
    }
}

/// "Contents over 4,096 bytes are refused by 16", whatever they come with.
#[test]
fn longer_contents_are_refused_beside_anything() {
    let good = block_record(3, &block(1, GENESIS, 1));
    let slices = [&[][..], &[0; 7], &[0; 8], &good[..79], &good, &vote_record(2, 1, name(1)), &[0xFF; 5_000]];
    for length in [CONTENTS + 1, CONTENTS + 2, 2 * CONTENTS, 1 << 17] {
        let contents = vec![0; length];
        for slice in slices {
            assert_eq!(record_answer(&six(1), slice, &contents), 16, "{length} bytes");
        }
        for replica in [six(0), six(1)] {
            assert_eq!(propose_answer(&replica, name(1), &contents), 16, "{length} bytes");
            assert_eq!(propose_answer(&replica, GENESIS, &contents), 16, "{length} bytes");
        }
    }
}

/// Contents that are present and empty are checked; absent ones aren't.
#[test]
fn empty_is_not_absent() {
    let any = block(1, GENESIS, 1);
    assert_eq!(judged(&six(1), |replica, out| replica.record(&block_record(3, &any), out)), 0);
    assert_eq!(block_answer(&six(1), &any, b""), 17);
    assert_eq!(judged(&six(0), |replica, out| replica.propose(any.name, out)), 0);
    assert_eq!(propose_answer(&six(0), any.name, b""), 17);
}

/// "the box then checks that the name is this digest": of exactly these contents, parent and height.
#[test]
fn any_other_triple_is_refused() {
    let block = named(GENESIS, 1, SHORT);
    let mut one_bit = SHORT.to_vec();
    one_bit[4] ^= 1;
    let longer = [SHORT, &[0]].concat();
    for contents in [&one_bit, &longer, &SHORT[..10], b""] {
        assert_eq!(block_answer(&six(1), &block, contents), 17);
        assert_eq!(record_answer(&six(1), &first_proposal(&block), contents), 17);
        assert_eq!(propose_answer(&six(0), block.name, contents), 17);
    }
    let others = [named(name(1), 1, SHORT), named(GENESIS, 0, SHORT), named(GENESIS, 2, SHORT)];
    let nearly = (0..32).flat_map(|byte| [0, 7].map(|bit| flipped(block.name, byte, bit)));
    for name in others.map(|other| other.name).into_iter().chain(nearly) {
        let renamed = Block { name, ..block };
        assert_eq!(block_answer(&six(1), &renamed, SHORT), 17);
        assert_eq!(record_answer(&six(1), &first_proposal(&renamed), SHORT), 17);
        assert_eq!(propose_answer(&six(0), name, SHORT), 17);
    }
}

/// The name with one bit changed.
fn flipped(mut name: Name, byte: usize, bit: u32) -> Name {
    name[byte] ^= 1 << bit;
    name
}

/// 17 is judged over the record's own parent and height, whatever they are.
#[test]
fn parent_and_height_need_not_be_right() {
    for (parent, height, number) in [
        (name(7), 1, 12),
        (GENESIS, 0, 13),
        (GENESIS, 2, 13),
        (GENESIS, (1 << 62) + 1, 13),
        (GENESIS, u64::MAX, 13),
        (name(7), u64::MAX, 12),
    ] {
        let block = named(parent, height, SHORT);
        assert_eq!(block_answer(&six(1), &block, SHORT), number);
        assert_eq!(block_answer(&six(1), &block, b"other"), 17);
        let proposal = first_proposal(&block);
        assert_eq!(record_answer(&six(1), &proposal, SHORT), 13, "the safe block, genesis, is held");
        assert_eq!(record_answer(&six(1), &proposal, b"other"), 17);
    }
}

/// "Beside any other kind only the contents' length is judged."
#[test]
fn other_kinds_are_judged_by_the_length_alone() {
    let replica = midway();
    let records = [
        vote_record(2, 8, name(VOTED)),
        commit_record(2, 8, name(VOTED)),
        certificate_record(5, 8, name(VOTED), FOUR),
        timeout_record(&timeout(2, 9)),
        timeouts_record(5, 8, &[0, 1, 3, 4].map(|sender| timeout(sender, 8))),
    ];
    for record in &records {
        for contents in [&b""[..], SHORT, &[0; CONTENTS]] {
            let (mut plain, mut with) = (replica.clone(), replica.clone());
            let (mut plain_out, mut with_out) = (Vec::new(), Vec::new());
            let reply = plain.record(record, &mut plain_out);
            assert!(reply.is_ok());
            assert_eq!(with.record_with(record, contents, &mut with_out), reply);
            assert!(with == plain && with_out == plain_out);
        }
        assert_eq!(record_answer(&replica, record, &[0; CONTENTS + 1]), 16);
    }
}

/// 17 stands before 10: a block that is held, or that was voted for, comes with wrong contents.
#[test]
fn a_held_block_with_wrong_contents() {
    let block = named(GENESIS, 1, SHORT);
    let mut holder = six(1);
    accept(&mut holder, &[block_record(3, &block)]);
    assert_eq!((block_answer(&holder, &block, SHORT), block_answer(&holder, &block, b"other")), (10, 17));
    let mut voter = six(1);
    accept(&mut voter, &[first_proposal(&block)]);
    let again = |contents: &[u8]| record_answer(&voter, &first_proposal(&block), contents);
    assert_eq!((again(SHORT), again(b"other")), (10, 17));
}

/// And before 11: what is held under a name that isn't its digest, and another name voted for.
#[test]
fn another_block_of_that_name_or_view() {
    let right = named(GENESIS, 1, SHORT);
    let mut holder = six(1);
    accept(
        &mut holder,
        &[
            block_record(3, &block(5, GENESIS, 1)),
            block_record(3, &Block { parent: name(5), height: Height(2), ..right }),
        ],
    );
    assert_eq!((block_answer(&holder, &right, SHORT), block_answer(&holder, &right, b"other")), (11, 17));
    let proposal = first_proposal(&right);
    assert_eq!((record_answer(&holder, &proposal, SHORT), record_answer(&holder, &proposal, b"other")), (11, 17));
    let mut voter = six(1);
    accept(&mut voter, &[first_proposal(&block(5, GENESIS, 1))]);
    assert_eq!((record_answer(&voter, &proposal, SHORT), record_answer(&voter, &proposal, b"other")), (11, 17));
}

/// And before 14.
#[test]
fn a_new_block_in_a_full_store() {
    let full = midway_full();
    let block = named(name(VOTED), 4, SHORT);
    assert_eq!((block_answer(&full, &block, SHORT), block_answer(&full, &block, b"other")), (14, 17));
    let proposal = proposal_record(2, 9, &block, &certificate_record(2, 8, name(VOTED), FOUR));
    assert_eq!((record_answer(&full, &proposal, SHORT), record_answer(&full, &proposal, b"other")), (14, 17));
}

/// Replica 0 in view 7, which it leads; it entered by a certificate for block 1, which it holds, and so does it block 2 on it.
fn leader() -> Replica {
    let mut replica = six(0);
    let held = [block_record(3, &block(1, GENESIS, 1)), block_record(3, &block(2, name(1), 2))];
    accept(&mut replica, &held);
    accept(&mut replica, &[certificate_record(3, 6, name(1), FOUR)]);
    replica
}

/// "for propose with the safe block and its height plus 1": not with the tip, the last block, or the safe block's own height.
#[test]
fn propose_is_checked_with_the_safe_block() {
    let right = named(name(1), 2, SHORT);
    assert_eq!(propose_answer(&leader(), right.name, SHORT), 0);
    assert_eq!(propose_answer(&leader(), right.name, b"other"), 17);
    for (parent, height) in [(name(1), 1), (name(1), 3), (GENESIS, 1), (GENESIS, 2), (name(2), 3), (name(2), 2)] {
        assert_eq!(propose_answer(&leader(), named(parent, height, SHORT).name, SHORT), 17);
    }
    let (mut plain, mut with) = (leader(), leader());
    let (mut plain_out, mut with_out) = (Vec::new(), Vec::new());
    assert_eq!(plain.propose(right.name, &mut plain_out), with.propose_with(right.name, SHORT, &mut with_out));
    assert!(with == plain && with_out == plain_out && with.held(&right.name) == Some(right));
}

/// "(propose: before 14)": 15, 5, 11, 12 and 13 come first, with right contents and wrong ones.
#[test]
fn propose_in_order() {
    let right = named(name(1), 2, SHORT);
    let answers = |replica: &Replica, name| [SHORT, b"other"].map(|contents| propose_answer(replica, name, contents));

    let mut timed = leader();
    timed.timer(View(7), &mut Vec::new()).unwrap();
    for out_of_turn in [six(1), timed] {
        assert_eq!(answers(&out_of_turn, right.name), [15, 15]);
        assert_eq!(answers(&out_of_turn, GENESIS), [15, 15]);
    }
    assert_eq!(answers(&leader(), GENESIS), [5, 5]);

    let mut holder = leader();
    accept(&mut holder, &[block_record(3, &right)]);
    assert_eq!((answers(&holder, right.name), answers(&holder, name(2))), ([11, 11], [11, 11]));

    let mut unknown = leader();
    unknown.memory.store.clear();
    assert_eq!(answers(&unknown, right.name), [12, 12]);
    unknown.counters.tip = block(1, GENESIS, 1 << 62);
    assert_eq!(answers(&unknown, right.name), [13, 13]);
    unknown.counters.tip.height = Height((1 << 62) - 1);
    assert_eq!(answers(&unknown, named(name(1), 1 << 62, SHORT).name), [0, 17]);

    let mut full = leader();
    while full.memory.store.push(block(99, name(1), 2)) {}
    assert_eq!(answers(&full, right.name), [14, 17]);
}

/// What a replica with this misreading answers, and what one without it does.
fn misread(misreading: Misreading, call: impl Fn(Replica) -> u16, replica: Replica) -> [u16; 2] {
    let faults = Faults { misreading: Some(misreading), ..Faults::NONE };
    [call(replica.clone().with_faults(faults)), call(replica)]
}

/// Each built-in misreading does what it says.
#[test]
fn misreadings() {
    use Misreading::*;
    let right = named(GENESIS, 1, SHORT);
    let record =
        |record: Vec<u8>, contents: &'static [u8]| move |replica: Replica| record_answer(&replica, &record, contents);
    let propose = |name, contents: &'static [u8]| move |replica: Replica| propose_answer(&replica, name, contents);
    let mut holder = six(1);
    accept(&mut holder, &[block_record(3, &right)]);
    let mut full = leader();
    while full.memory.store.push(block(99, name(1), 2)) {}
    let on_leader = named(name(1), 2, SHORT).name;
    let by_nobody = block_record(6, &right);
    let mut nearly = right;
    nearly.name[31] ^= 1;
    let elsewhere = first_proposal(&named(name(9), 4, SHORT));

    let first = block_record(3, &block(1, GENESIS, 1));
    let long = &[0; CONTENTS + 1];
    assert_eq!(misread(OneByteMore, record(vote_record(2, 1, name(1)), long), six(1)), [0, 16]);
    assert_eq!(misread(EmptyIsAbsent, record(first, b""), six(1)), [0, 17]);
    assert_eq!(misread(LengthLater, record(vec![], long), six(1)), [3, 16]);
    assert_eq!(misread(LengthLater, propose(name(1), long), six(1)), [15, 16]);
    assert_eq!(misread(NameEarlier, record(by_nobody, b"other"), six(1)), [17, 6]);
    assert_eq!(misread(NameEarlier, propose(name(1), b"other"), leader()), [17, 11]);
    assert_eq!(misread(NameAfterRepeated, record(block_record(3, &right), b"other"), holder), [10, 17]);
    assert_eq!(misread(NameLast, record(block_record(3, &block(1, name(9), 1)), b"other"), six(1)), [12, 17]);
    assert_eq!(misread(NameLast, propose(on_leader, b"other"), full), [14, 17]);
    assert_eq!(misread(LastByteLeftOut, record(block_record(3, &nearly), SHORT), six(1)), [0, 17]);
    assert_eq!(misread(BesideAnyKind, record(vote_record(2, 1, name(1)), SHORT), six(1)), [17, 0]);
    assert_eq!(misread(ProposalOnSafeBlock, record(elsewhere, SHORT), six(1)), [17, 13]);
    assert_eq!(misread(ProposeOnTip, propose(on_leader, SHORT), leader()), [17, 0]);
    assert_eq!(misread(ProposeOnTip, propose(right.name, SHORT), leader()), [0, 17]);
    assert_eq!(misread(ProposeAtSafeHeight, propose(named(name(1), 1, SHORT).name, SHORT), leader()), [0, 17]);
    for misreading in Misreading::ALL {
        assert_eq!(misread(misreading, record(block_record(3, &right), SHORT), six(1)), [0, 0], "{misreading:?}");
    }
}
