//! A replica's state as the bytes that a host lends. Where each stands is `docs/INTERFACE.md`'s to say, and so are the
//! bytes that 01 leaves free: what no action writes stays.

use crate::certificate::{Certificate, CertificateKind};
use crate::kept::{BallotRows, EntryCertificate, TimeoutRows};
use crate::leaders::Leaders;
use crate::replica::{Counters, Memory, Replica};
use crate::settings::Settings;
use crate::store::Store;
use crate::types::{Block, Height, Refusal, Reply, View, Vote};
use crate::wire::{self, name_at, u16_at, u64_at};

/// Counters: view, timed, high vote (view, name), lock and best weak (view, name, signers each), tip (a block).
pub const COUNTERS: usize = 2 * 8 + (8 + NAME) + 2 * SIGNED + BLOCK;
/// An entry of the store: name, parent, height.
pub const BLOCK: usize = 2 * NAME + 8;
/// What is lent at least.
pub const MEMORY: usize = TIMEOUTS + 4 * TIMEOUT_ROW;
pub const STORE: usize = Store::ROOM * BLOCK;
pub const OUTPUT: usize = 32_768;

const NAME: usize = 32;
const SIGNED: usize = 8 + NAME + 8;

// Places in memory; f, c and k stand at 0, 2 and 4, and at 14 and 15 two bytes are free.
pub const OWN: usize = 6;
pub const BLOCK_COUNT: usize = 8;
pub const ENTRY_LENGTH: usize = 10;
pub const LEADERS_LENGTH: usize = 12;
pub const LEADERS: usize = 16;
pub const ENTRY: usize = LEADERS + Leaders::MOST;
const VOTES: usize = ENTRY + EntryCertificate::MOST;
const COMMITS: usize = VOTES + 8 * BALLOT_ROW;
const TIMEOUTS: usize = COMMITS + 8 * BALLOT_ROW;
const BALLOT_ROW: usize = 8 + NAME * Settings::MAX_N;
const TIMEOUT_ROW: usize = 8 + wire::TIMEOUT * Settings::MAX_N;

/// What a host lends for a call.
pub struct Regions<'a> {
    pub counters: &'a mut [u8; COUNTERS],
    pub memory: &'a mut [u8],
    pub store: &'a mut [u8],
    pub output: &'a mut [u8],
}

impl Regions<'_> {
    /// Opening: 1 by the settings and the leader list, 2 by the lengths. What was left over in the store, behind the
    /// leader list and behind the entry certificate stays.
    pub fn open(&mut self, [f, c, k, n, own]: [u64; 5], leaders: &[u8]) -> Reply {
        let mut opened = Replica::open(f, c, k, n, own, leaders)?;
        if !self.hold_a_replica() {
            return Err(Refusal::Regions);
        }
        opened.memory.leaders = opened.memory.leaders.over(self.leaders_place());
        let mut entry = self.entry();
        entry.set(opened.memory.entry.record());
        opened.memory.entry = entry;
        opened.memory.store = Store::of(0, self.blocks()).expect("none is held");
        for (place, number) in [f, c, k, own].into_iter().enumerate() {
            put_u16(self.memory, 2 * place, number as u16);
        }
        self.save(&opened);
        Ok(0)
    }

    /// A call on the replica that was lent: 2 where there is none, and a refusal leaves every byte.
    pub fn call(&mut self, call: impl FnOnce(&mut Replica, &mut Vec<u8>) -> Reply) -> Reply {
        let room = self.output.len() >= OUTPUT;
        let mut replica = self.load().filter(|_| room).ok_or(Refusal::Regions)?;
        let mut out = Vec::new();
        let written = call(&mut replica, &mut out)?;
        self.output[..written].copy_from_slice(&out);
        self.save(&replica);
        Ok(written)
    }

    fn hold_a_replica(&self) -> bool {
        self.memory.len() >= MEMORY && self.store.len() >= STORE
    }

    /// The replica that counters, memory and store hold; none where refusal 2 turns them away.
    pub fn load(&self) -> Option<Replica> {
        if !self.hold_a_replica() {
            return None;
        }
        let [f, c, k] = [0, 2, 4].map(|at| u64::from(u16_at(self.memory, at)));
        let settings = Settings::new(f, c, k)?;
        let own = u16_at(self.memory, OWN);
        let memory = Box::new(Memory {
            leaders: Leaders::of(u16_at(self.memory, LEADERS_LENGTH).into(), self.leaders_place())?,
            entry: self.entry(),
            votes: ballots_at(self.memory, VOTES),
            commits: ballots_at(self.memory, COMMITS),
            timeouts: timeouts_at(self.memory, TIMEOUTS),
            store: Store::of(u16_at(self.memory, BLOCK_COUNT).into(), self.blocks())?,
        });
        let replica = Replica::of(settings, own, counters_of(self.counters), memory);
        (u32::from(own) < settings.n() && replica.is_sound()).then_some(replica)
    }

    fn leaders_place(&self) -> [u8; Leaders::MOST] {
        self.memory[LEADERS..ENTRY].try_into().expect("the place of a leader list")
    }

    fn entry(&self) -> EntryCertificate {
        let place = self.memory[ENTRY..VOTES].try_into().expect("the place of an entry certificate");
        EntryCertificate::of(u16_at(self.memory, ENTRY_LENGTH).into(), place)
    }

    fn blocks(&self) -> [Block; Store::ROOM] {
        std::array::from_fn(|i| block_at(self.store, BLOCK * i))
    }

    /// Writes the state of a replica, all but its settings and own number, which no call changes.
    pub fn save(&mut self, replica: &Replica) {
        put_counters(self.counters, &replica.counters);
        let Memory { leaders, entry, votes, commits, timeouts, store } = &*replica.memory;
        put_u16(self.memory, BLOCK_COUNT, store.blocks().len() as u16);
        put_u16(self.memory, ENTRY_LENGTH, entry.record().len() as u16);
        put_u16(self.memory, LEADERS_LENGTH, leaders.list().len() as u16);
        put(self.memory, LEADERS, leaders.place());
        put(self.memory, ENTRY, entry.place());
        put_ballots(self.memory, VOTES, votes);
        put_ballots(self.memory, COMMITS, commits);
        put_timeouts(self.memory, TIMEOUTS, timeouts);
        for (i, block) in store.entries().iter().enumerate() {
            put_block(self.store, BLOCK * i, block);
        }
    }
}

fn put(bytes: &mut [u8], at: usize, part: &[u8]) {
    bytes[at..at + part.len()].copy_from_slice(part);
}

fn put_u16(bytes: &mut [u8], at: usize, number: u16) {
    put(bytes, at, &number.to_le_bytes());
}

fn put_u64(bytes: &mut [u8], at: usize, number: u64) {
    put(bytes, at, &number.to_le_bytes());
}

fn counters_of(bytes: &[u8; COUNTERS]) -> Counters {
    Counters {
        view: View(u64_at(bytes, 0)),
        timed: View(u64_at(bytes, 8)),
        high_vote: Vote { view: View(u64_at(bytes, 16)), name: name_at(bytes, 24) },
        lock: signed_at(bytes, 56, CertificateKind::Block),
        best_weak: signed_at(bytes, 56 + SIGNED, CertificateKind::Weak),
        tip: block_at(bytes, COUNTERS - BLOCK),
    }
}

fn put_counters(bytes: &mut [u8; COUNTERS], counters: &Counters) {
    put_u64(bytes, 0, counters.view.0);
    put_u64(bytes, 8, counters.timed.0);
    put_u64(bytes, 16, counters.high_vote.view.0);
    put(bytes, 24, &counters.high_vote.name);
    put_signed(bytes, 56, &counters.lock);
    put_signed(bytes, 56 + SIGNED, &counters.best_weak);
    put_block(bytes, COUNTERS - BLOCK, &counters.tip);
}

/// A certificate whose kind is said by where it stands.
fn signed_at(bytes: &[u8], at: usize, kind: CertificateKind) -> Certificate {
    let signers = u64_at(bytes, at + 8 + NAME);
    Certificate { kind, view: View(u64_at(bytes, at)), name: name_at(bytes, at + 8), signers }
}

fn put_signed(bytes: &mut [u8], at: usize, certificate: &Certificate) {
    put_u64(bytes, at, certificate.view.0);
    put(bytes, at + 8, &certificate.name);
    put_u64(bytes, at + 8 + NAME, certificate.signers);
}

fn block_at(bytes: &[u8], at: usize) -> Block {
    let height = Height(u64_at(bytes, at + 2 * NAME));
    Block { name: name_at(bytes, at), parent: name_at(bytes, at + NAME), height }
}

fn put_block(bytes: &mut [u8], at: usize, block: &Block) {
    put(bytes, at, &block.name);
    put(bytes, at + NAME, &block.parent);
    put_u64(bytes, at + 2 * NAME, block.height.0);
}

/// Eight rows, each a mask and a name for each replica.
fn ballots_at(memory: &[u8], at: usize) -> BallotRows {
    let mut ballots = BallotRows::EMPTY;
    for (row, bytes) in ballots.rows.iter_mut().zip(memory[at..].chunks_exact(BALLOT_ROW)) {
        row.given = u64_at(bytes, 0);
        row.names = std::array::from_fn(|i| name_at(bytes, 8 + NAME * i));
    }
    ballots
}

fn put_ballots(memory: &mut [u8], at: usize, ballots: &BallotRows) {
    for (row, bytes) in ballots.rows.iter().zip(memory[at..].chunks_exact_mut(BALLOT_ROW)) {
        put_u64(bytes, 0, row.given);
        put(bytes, 8, row.names.as_flattened());
    }
}

/// Four rows, each a mask and a record for each replica.
fn timeouts_at(memory: &[u8], at: usize) -> TimeoutRows {
    let mut timeouts = TimeoutRows::EMPTY;
    for (row, bytes) in timeouts.rows.iter_mut().zip(memory[at..].chunks_exact(TIMEOUT_ROW)) {
        row.given = u64_at(bytes, 0);
        row.raw.as_flattened_mut().copy_from_slice(&bytes[8..]);
    }
    timeouts
}

fn put_timeouts(memory: &mut [u8], at: usize, timeouts: &TimeoutRows) {
    for (row, bytes) in timeouts.rows.iter().zip(memory[at..].chunks_exact_mut(TIMEOUT_ROW)) {
        put_u64(bytes, 0, row.given);
        put(bytes, 8, row.raw.as_flattened());
    }
}
