//! Blocks, proposals and propose calls that come with contents: names that the library makes, and those that it refuses.

use oracle::wire::{self, Record as Wire};
use oracle::{Block, Certificate, Height, View};
use replica::{block_name, Accepted, Content, Contents, Name, Refusal, Replica, Settings};

const SETTINGS: Settings = Settings { f: 1, c: 1, k: 0, n: 6 };
const TITLE: Contents = Contents(b"title 7 issued");
const OTHER: Contents = Contents(b"title 8 issued");
const EMPTY: Contents = Contents(b"");
const LONGEST: Contents = Contents(&[7; 4_096]);
const LONGER: Contents = Contents(&[7; 4_097]);

fn open(own: u64) -> Replica {
    Replica::open(SETTINGS, own, &SETTINGS.in_turn()).expect("good settings")
}

/// The block of these contents on another one.
fn child(parent: &replica::Block, contents: Contents<'_>) -> replica::Block {
    let height = replica::Height(parent.height.0 + 1);
    let name = block_name(parent.name, height, contents.0).expect("contents that aren't too long");
    replica::Block { name, parent: parent.name, height }
}

/// As a record of kind 8.
fn block_record(block: &replica::Block) -> Vec<u8> {
    let mut record = Vec::new();
    let replica::Block { name, parent, height } = block;
    wire::write_block(&mut record, 2, &Block { name: name.bytes, parent: parent.bytes, height: Height(height.0) });
    record
}

/// The first record that a call wrote.
fn first(accepted: Accepted<'_>) -> Vec<u8> {
    accepted.unsaved().records().next().expect("a record").bytes.to_vec()
}

fn proposal_by(leader: &mut Replica, contents: Contents<'_>) -> (Name, Vec<u8>) {
    let (name, accepted) = leader.propose_contents(contents).expect("a proposal");
    (name, first(accepted))
}

/// A refused call leaves every byte.
fn assert_refused(replica: &mut Replica, record: &[u8], contents: Contents<'_>, number: u64) {
    let before = replica.save();
    assert_eq!(replica.record_with(record, contents).err().map(Refusal::number), Some(number));
    assert!(replica.save() == before, "a refused call changed something");
}

#[test]
fn a_block_is_taken_with_its_contents_alone() {
    for contents in [TITLE, EMPTY, LONGEST] {
        let mut replica = open(1);
        let block = child(&replica.tip(), contents);
        let record = block_record(&block);
        assert_refused(&mut replica, &record, OTHER, 17);
        assert_refused(&mut replica, &record, LONGER, 16);
        assert!(replica.record_with(&record, contents).is_ok());
        assert_eq!(replica.held(), [block]);
        assert_refused(&mut replica, &record, contents, 10);
        assert_refused(&mut replica, &record, OTHER, 17); // held, and yet not 10
        assert_eq!(replica.record(&record).err(), Some(Refusal::Repeated));
    }
}

/// Present and empty is not absent.
#[test]
fn empty_contents_are_checked_and_absent_ones_are_not() {
    let mut replica = open(1);
    let invented = replica::Block { name: Name { bytes: [7; 32] }, height: replica::Height(1), ..Default::default() };
    assert_refused(&mut replica, &block_record(&invented), EMPTY, 17);
    assert!(replica.record(&block_record(&invented)).is_ok());
}

/// A held name with another parent or height is refused by 17 where contents come with it: they can't be its own.
#[test]
fn a_held_name_with_another_parent_is_no_digest() {
    let mut replica = open(1);
    let block = child(&replica.tip(), TITLE);
    assert!(replica.record_with(&block_record(&block), TITLE).is_ok());
    let moved = replica::Block { parent: block.name, height: replica::Height(2), ..block };
    assert_refused(&mut replica, &block_record(&moved), TITLE, 17);
    assert_eq!(replica.record(&block_record(&moved)).err(), Some(Refusal::Conflicting));
}

/// What is no record, and what its shape, sender, view or certificate turns away, gets that number with any contents.
#[test]
fn seventeen_comes_after_nine() {
    let mut replica = open(1);
    let record = block_record(&child(&replica.tip(), TITLE));
    assert_refused(&mut replica, &record[..79], OTHER, 3);
    assert_refused(&mut replica, &[], OTHER, 3);
    assert_refused(&mut replica, &[], LONGER, 16);
    let changed = |at: usize, to: u8| {
        let mut record = record.clone();
        record[at] = to;
        record
    };
    assert_refused(&mut replica, &changed(4, 9), OTHER, 4);
    assert_refused(&mut replica, &changed(6, 6), OTHER, 6);
    let (_, mut proposal) = proposal_by(&mut open(0), TITLE);
    proposal[8] = 0; // its view
    assert_refused(&mut replica, &proposal, OTHER, 7);
}

#[test]
fn a_proposal_is_taken_with_its_contents_alone() {
    let (name, record) = proposal_by(&mut open(0), TITLE);
    let mut replica = open(1);
    for contents in [OTHER, EMPTY] {
        assert_refused(&mut replica, &record, contents, 17);
    }
    assert_refused(&mut replica, &record, LONGER, 16);
    let vote = first(replica.record_with(&record, TITLE).expect("accepted"));
    assert_eq!(replica.high_vote().map(|vote| vote.name), Some(name));
    assert_refused(&mut replica, &record, TITLE, 10);
    assert_refused(&mut replica, &record, OTHER, 17); // voted for, and yet not 10
    assert!(open(2).record_with(&vote, LONGEST).is_ok(), "beside a vote only the length is judged");
    assert_refused(&mut open(2), &vote, LONGER, 16);
}

#[test]
fn propose_checks_the_name() {
    let mut leader = open(0);
    let name = child(&leader.tip(), TITLE).name;
    let before = leader.save();
    let refusals = [(name, OTHER, 17), (name, EMPTY, 17), (name, LONGER, 16), (Name::GENESIS, TITLE, 5)];
    for (name, contents, number) in refusals {
        assert_eq!(leader.propose_with(name, contents).err().map(Refusal::number), Some(number));
    }
    assert!(leader.save() == before);
    assert_eq!(open(1).propose_with(name, LONGER).err(), Some(Refusal::ContentsTooLong)); // and 15 comes after 16
    assert_eq!(open(1).propose_with(name, OTHER).err(), Some(Refusal::Turn)); // and 17 after 15
    assert!(leader.propose_with(name, TITLE).is_ok());
}

/// The call with the right name writes what the plain one writes, and leaves the same state.
#[test]
fn a_checked_name_goes_the_way_of_a_plain_one() {
    let (mut plain, mut checked, mut made) = (open(0), open(0), open(0));
    let name = child(&plain.tip(), TITLE).name;
    let bytes = |accepted: Accepted<'_>| accepted.unsaved().bytes().to_vec();
    let written = bytes(plain.propose(name).expect("accepted"));
    assert_eq!(bytes(checked.propose_with(name, TITLE).expect("accepted")), written);
    let (made_name, accepted) = made.propose_contents(TITLE).expect("accepted");
    assert_eq!((made_name, bytes(accepted)), (name, written));
    assert!(plain.save() == checked.save() && plain.save() == made.save());
}

/// A chain of held blocks beside the safe one: the name is made on the right one.
#[test]
fn contents_are_proposed_on_the_safe_block() {
    let mut leader = open(0);
    let mut top = leader.tip();
    for _ in 0..5 {
        top = child(&top, OTHER);
        assert!(leader.record_with(&block_record(&top), OTHER).is_ok());
    }
    let (name, record) = proposal_by(&mut leader, TITLE);
    assert_eq!(name, child(&replica::Block::default(), TITLE).name);
    let Ok(Wire::Proposal(proposal)) = wire::read(&record, 6) else { panic!("a proposal") };
    assert_eq!((proposal.block.parent, proposal.block.height), (oracle::GENESIS, Height(1)));
}

/// The block that these contents would make is held already.
#[test]
fn a_held_block_is_not_proposed_again() {
    let mut leader = open(0);
    let block = child(&leader.tip(), OTHER);
    assert!(leader.record_with(&block_record(&block), OTHER).is_ok());
    let before = leader.save();
    assert_eq!(leader.propose_contents(OTHER).err(), Some(Refusal::Conflicting));
    assert_eq!(leader.propose_contents(LONGER).err(), Some(Refusal::ContentsTooLong));
    assert!(leader.save() == before);
    assert!(leader.propose_contents(EMPTY).is_ok());
}

/// Replica 1 enters view 2 by a certificate of five votes for a block of view 1.
fn enter_two(leader: &mut Replica, block: &replica::Block) {
    let certificate = Certificate::block(View(1), block.name.bytes, 0b111101);
    let mut record = Vec::new();
    wire::write_block_certificate(&mut record, 0, &certificate);
    assert!(leader.record(&record).is_ok());
}

#[test]
fn a_safe_block_that_is_not_held_is_missing() {
    let mut leader = open(1);
    let block = child(&leader.tip(), TITLE);
    enter_two(&mut leader, &block);
    assert_eq!(leader.propose_contents(OTHER).err(), Some(Refusal::ParentMissing));
    assert_eq!(leader.entry().map(|entry| entry.names()), Some(vec![block.name]), "so the host knows what to ask for");
    assert!(leader.record_with(&block_record(&block), TITLE).is_ok());
    let (name, _) = proposal_by(&mut leader, OTHER);
    assert_eq!(name, child(&block, OTHER).name);
}

/// View 2 is entered by timeouts, of which two give one block as high vote and two another: whichever is safe, the library
/// builds on it.
#[test]
fn contents_are_proposed_after_timeouts() {
    let shown = [TITLE, OTHER].map(|contents| (contents, proposal_by(&mut open(0), contents)));
    let mut cluster: Vec<Replica> = (0..6).map(open).collect();
    let mut timeouts = Vec::new();
    for own in 1..5 {
        let (contents, (_, record)) = &shown[own / 3];
        assert!(cluster[own].record_with(record, *contents).is_ok());
        timeouts.push(first(cluster[own].timer(replica::View(1)).expect("accepted")));
    }
    let leader = &mut cluster[1];
    for (contents, (name, _)) in &shown {
        let block = child(&leader.tip(), *contents);
        assert_eq!(block.name, *name);
        _ = leader.record_with(&block_record(&block), *contents); // the one of these that it voted for is held
    }
    timeouts[1..].iter().for_each(|timeout| assert!(leader.record(timeout).is_ok()));
    assert_eq!(leader.view(), replica::View(2));
    let safe = shown.iter().map(|(_, (name, _))| *name).min().expect("two names"); // of weak ones the smaller name
    let (name, accepted) = leader.propose_contents(EMPTY).expect("accepted");
    let Some(Content::Proposal(proposal)) = accepted.unsaved().records().map(|record| record.content).next() else {
        panic!("a proposal");
    };
    assert_eq!((proposal.block.name, proposal.block.parent), (name, safe));
}

/// One timeout of four gives a block as high vote, so genesis is safe. On that block the same contents make a block that is
/// held: that isn't the end of the search.
#[test]
fn a_held_name_on_another_block_is_passed_over() {
    let (_, proposal) = proposal_by(&mut open(0), TITLE);
    let mut leader = open(1);
    assert!(leader.record_with(&proposal, TITLE).is_ok());
    let above = child(&leader.held()[0], OTHER);
    assert!(leader.record_with(&block_record(&above), OTHER).is_ok());
    assert!(leader.timer(replica::View(1)).is_ok());
    for own in 2..5 {
        let timeout = first(open(own).timer(replica::View(1)).expect("accepted"));
        assert!(leader.record(&timeout).is_ok());
    }
    assert_eq!(leader.entry().map(|entry| entry.names()), Some(vec![Name::GENESIS, above.parent]));
    assert_eq!(leader.propose_with(above.name, OTHER).err(), Some(Refusal::Conflicting));
    let (name, _) = proposal_by(&mut leader, OTHER);
    assert_eq!(name, child(&replica::Block::default(), OTHER).name);
}

/// Two timeouts of four give a block as high vote, which is safe and isn't held. What the contents make on genesis is held:
/// the safe block is missing all the same.
#[test]
fn a_held_name_does_not_hide_that_the_safe_block_is_missing() {
    let (_, proposal) = proposal_by(&mut open(0), TITLE);
    let mut leader = open(1);
    let held = child(&leader.tip(), OTHER);
    assert!(leader.record_with(&block_record(&held), OTHER).is_ok());
    assert!(leader.timer(replica::View(1)).is_ok());
    for own in 2..5 {
        let mut other = open(own);
        if own < 4 {
            assert!(other.record_with(&proposal, TITLE).is_ok());
        }
        let timeout = first(other.timer(replica::View(1)).expect("accepted"));
        assert!(leader.record(&timeout).is_ok());
    }
    assert_eq!(leader.view(), replica::View(2));
    let before = leader.save();
    assert_eq!(leader.propose_contents(OTHER).err(), Some(Refusal::ParentMissing));
    assert!(leader.save() == before);
}

#[test]
fn seventeen_comes_before_fourteen() {
    let mut leader = open(0);
    for number in 0..128u8 {
        let contents = [number];
        let block = child(&leader.tip(), Contents(&contents));
        assert!(leader.record_with(&block_record(&block), Contents(&contents)).is_ok());
    }
    let name = child(&leader.tip(), TITLE).name;
    assert_eq!(leader.propose_with(name, OTHER).err(), Some(Refusal::NameWrong));
    assert_eq!(leader.propose_with(name, TITLE).err(), Some(Refusal::StoreFull));
    assert_eq!(leader.propose_contents(TITLE).err(), Some(Refusal::StoreFull));
    let block = block_record(&child(&leader.tip(), TITLE));
    assert_refused(&mut leader, &block, OTHER, 17);
    assert_refused(&mut leader, &block, TITLE, 14);
}
