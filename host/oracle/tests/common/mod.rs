//! A replica in the middle of a run, and records for it.
#![allow(dead_code)]

pub mod breaks;

use oracle::{block_name, wire, Block, Certificate, Height, Name, Replica, Timeout, View, Vote, GENESIS};

/// Four signers: a block quorum of six.
pub const FOUR: u64 = 0b01_1110;

pub fn name(number: u8) -> Name {
    [number; 32]
}

pub fn record(write: impl FnOnce(&mut Vec<u8>)) -> Vec<u8> {
    let mut bytes = Vec::new();
    write(&mut bytes);
    bytes
}

pub fn block(number: u8, parent: Name, height: u64) -> Block {
    Block { name: name(number), parent, height: Height(height) }
}

pub fn timeout(sender: u16, view: u64) -> Timeout {
    Timeout { sender, view: View(view), high_vote: Vote::NONE, certificate: Certificate::GENESIS }
}

pub fn vote_record(sender: u16, view: u64, name: Name) -> Vec<u8> {
    record(|out| wire::write_vote(out, sender, Vote { view: View(view), name }))
}

pub fn commit_record(sender: u16, view: u64, name: Name) -> Vec<u8> {
    record(|out| wire::write_commit(out, sender, Vote { view: View(view), name }))
}

pub fn certificate_record(sender: u16, view: u64, name: Name, signers: u64) -> Vec<u8> {
    record(|out| wire::write_block_certificate(out, sender, &Certificate::block(View(view), name, signers)))
}

pub fn timeout_record(timeout: &Timeout) -> Vec<u8> {
    record(|out| wire::write_timeout(out, timeout))
}

pub fn timeouts_record(sender: u16, view: u64, timeouts: &[Timeout]) -> Vec<u8> {
    record(|out| wire::write_timeout_certificate(out, sender, View(view), timeouts))
}

pub fn proposal_record(sender: u16, view: u64, block: &Block, progress: &[u8]) -> Vec<u8> {
    record(|out| wire::write_proposal(out, sender, View(view), block, progress))
}

pub fn block_record(sender: u16, block: &Block) -> Vec<u8> {
    record(|out| wire::write_block(out, sender, block))
}

/// The block that has these contents.
pub fn named(parent: Name, height: u64, contents: &[u8]) -> Block {
    let height = Height(height);
    Block { name: block_name(parent, height, contents).expect("at most 4,096 bytes"), parent, height }
}

/// Gives a proposal or a block record the name that its own parent and height have with these contents.
pub fn rename(record: &mut [u8], contents: &[u8]) {
    let at = wire::block_place(record).expect("a record with a block");
    let block = wire::block_of(record).expect("a block");
    record[at..at + 32].copy_from_slice(&named(block.parent, block.height.0, contents).name);
}

/// Hands records in that must be accepted; gives all output.
pub fn accept(replica: &mut Replica, records: &[Vec<u8>]) -> Vec<u8> {
    let mut out = Vec::new();
    for (i, record) in records.iter().enumerate() {
        replica.record(record, &mut out).unwrap_or_else(|refusal| panic!("record {i}: {refusal:?}"));
    }
    out
}

pub fn answer_to(replica: &mut Replica, record: &[u8]) -> u16 {
    oracle::answer(replica.record(record, &mut Vec::new()))
}

/// The kinds of the records in an output.
pub fn kinds(output: &[u8]) -> Vec<u16> {
    wire::records(output).map(wire::kind_of).collect()
}

/// The list 0 to n−1 of six.
pub const IN_TURN: [u8; 6] = [0, 1, 2, 3, 4, 5];

pub fn six(own: u64) -> Replica {
    six_led(own, &IN_TURN)
}

pub fn six_led(own: u64, leaders: &[u8]) -> Replica {
    Replica::open(1, 1, 0, 6, own, leaders).unwrap()
}

pub const SAFE: u8 = 2;
pub const VOTED: u8 = 8;

/// Replica 0 of six in view 8 with lock (7, block 2): it holds blocks 1 and 2, voted for block 8 on block 2, and keeps
/// the vote and the commit of replica 3 for (8, block 8) and its timeout for view 9.
pub fn midway() -> Replica {
    let mut replica = six(0);
    accept(
        &mut replica,
        &[
            block_record(3, &block(1, GENESIS, 1)),
            block_record(3, &block(SAFE, name(1), 2)),
            certificate_record(3, 7, name(SAFE), FOUR),
            proposal_record(1, 8, &block(VOTED, name(SAFE), 3), &certificate_record(1, 7, name(SAFE), FOUR)),
            vote_record(3, 8, name(VOTED)),
            commit_record(3, 8, name(VOTED)),
            timeout_record(&timeout(3, 9)),
        ],
    );
    assert_eq!(replica.counters.view, View(8));
    assert_eq!(replica.counters.high_vote, Vote { view: View(8), name: name(VOTED) });
    replica
}

/// The same with a full store.
pub fn midway_full() -> Replica {
    let mut replica = midway();
    let mut number = 100u64;
    while !replica.memory.store.is_full() {
        number += 1;
        let mut child = block(0, name(SAFE), 3);
        child.name[..8].copy_from_slice(&number.to_le_bytes());
        accept(&mut replica, &[block_record(3, &child)]);
    }
    replica
}
