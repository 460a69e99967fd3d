//! Settings and records, by short names.

use oracle::wire;
use oracle::{Block, Certificate, Height, Name, Timeout, View, Vote, GENESIS};

pub const A: Name = [b'A'; 32];
pub const B: Name = [b'B'; 32];
pub const C: Name = [b'C'; 32];
pub const D: Name = [b'D'; 32];
pub const E: Name = [b'E'; 32];
pub const F: Name = [b'F'; 32];

/// f, c, k and n.
pub type Numbers = [u16; 4];
pub const ONE: Numbers = [0, 0, 0, 1];
pub const SIX: Numbers = [1, 1, 0, 6];
pub const TEN: Numbers = [1, 2, 2, 10];

/// Replicas 0 to 3: a block quorum of six.
pub const FOUR: u64 = 0b1111;

/// The first view that 8 turns away in every kind.
pub const ABOVE: u64 = 1 << 62;

fn record(write: impl FnOnce(&mut Vec<u8>)) -> Vec<u8> {
    let mut bytes = Vec::new();
    write(&mut bytes);
    bytes
}

pub fn opening([f, c, k, n]: Numbers, own: u16) -> Vec<u8> {
    record(|out| wire::write_opening(out, [f, c, k, n, own]))
}

pub fn timer(view: u64) -> Vec<u8> {
    record(|out| wire::write_timer(out, View(view)))
}

pub fn propose(name: Name) -> Vec<u8> {
    record(|out| wire::write_propose(out, name))
}

pub fn vote(sender: u16, view: u64, name: Name) -> Vec<u8> {
    record(|out| wire::write_vote(out, sender, Vote { view: View(view), name }))
}

pub fn commit(sender: u16, view: u64, name: Name) -> Vec<u8> {
    record(|out| wire::write_commit(out, sender, Vote { view: View(view), name }))
}

pub fn certificate(sender: u16, view: u64, name: Name, signers: u64) -> Vec<u8> {
    record(|out| wire::write_block_certificate(out, sender, &Certificate::block(View(view), name, signers)))
}

pub fn genesis_certificate(sender: u16) -> Vec<u8> {
    certificate(sender, 0, GENESIS, 0)
}

/// A timeout without a high vote, with the genesis certificate.
pub fn timeout(sender: u16, view: u64) -> Vec<u8> {
    timeout_with(sender, view, Vote::NONE, Certificate::GENESIS)
}

pub fn timeout_with(sender: u16, view: u64, high_vote: Vote, certificate: Certificate) -> Vec<u8> {
    wire::raw_timeout(&Timeout { sender, view: View(view), high_vote, certificate }).to_vec()
}

/// A timeout certificate of these timeouts, in the order given.
pub fn timeouts_of(sender: u16, view: u64, timeouts: &[Vec<u8>]) -> Vec<u8> {
    let inner: Vec<Timeout> = timeouts.iter().map(|raw| wire::read_timeout(raw)).collect();
    record(|out| wire::write_timeout_certificate(out, sender, View(view), &inner))
}

/// The same of timeouts without high votes, by these senders.
pub fn timeouts(sender: u16, view: u64, senders: &[u16]) -> Vec<u8> {
    let inner: Vec<Vec<u8>> = senders.iter().map(|from| timeout(*from, view)).collect();
    timeouts_of(sender, view, &inner)
}

pub fn block(name: Name, parent: Name, height: u64) -> Block {
    Block { name, parent, height: Height(height) }
}

pub fn block_record(sender: u16, name: Name, parent: Name, height: u64) -> Vec<u8> {
    record(|out| wire::write_block(out, sender, &block(name, parent, height)))
}

pub fn proposal(sender: u16, view: u64, block: Block, progress: &[u8]) -> Vec<u8> {
    record(|out| wire::write_proposal(out, sender, View(view), &block, progress))
}

/// The same record with bytes put in from `at` on.
pub fn with(mut record: Vec<u8>, at: usize, bytes: &[u8]) -> Vec<u8> {
    record[at..at + bytes.len()].copy_from_slice(bytes);
    record
}

/// The same record with another sender.
pub fn sent_by(record: Vec<u8>, sender: u16) -> Vec<u8> {
    with(record, 6, &sender.to_le_bytes())
}
