//! A program beside 01's: the same records as calls, but on regions that the input lends with any content and of any
//! length. Another implementation with the same program is compared with it byte for byte.
//!
//! A record of kind 13 lends counters, memory and store: seed u64 (to find the state again), the lengths lent of memory
//! (bytes), store (blocks) and output (bytes), u64 each, then counters and the whole rooms of memory and store. The rooms
//! are a little longer than 01's program needs, so that bytes behind what is lent can be seen to stay; the output's room
//! is filled with `UNWRITTEN`. It prints `state SEED` and the digests. A kind 12 is an opening of the lent regions: the
//! run program's 24 bytes, and behind them the leader list, one byte an entry. A record answered with 3 doesn't stop the
//! run. Each call's line is that of the run program with its output in hex, then the digests of counters, memory, store
//! and output, each of the whole room.

use std::io::{self, Write};

use crate::regions::{self, Regions};
use crate::run;
use crate::types::{answer, Reply};
use crate::wire::{self, u64_at};

pub const LEND: u16 = 13;
pub const MEMORY_ROOM: usize = regions::MEMORY + 56;
/// In blocks.
pub const STORE_ROOM: usize = 130;
pub const OUTPUT_ROOM: usize = regions::OUTPUT + 32;
const UNWRITTEN: u8 = 0xA5;

const HEAD: usize = wire::HEADER + 4 * 8;
const LEND_LENGTH: usize = HEAD + regions::COUNTERS + MEMORY_ROOM + STORE_ROOM * regions::BLOCK;

/// What a host has, and how much of it it lends.
#[derive(Clone, Debug, PartialEq, Eq)]
pub struct Rooms {
    pub counters: [u8; regions::COUNTERS],
    pub memory: Vec<u8>,
    pub store: Vec<u8>,
    pub output: Vec<u8>,
    /// Of memory in bytes, of the store in blocks, of the output in bytes.
    pub lent: [usize; 3],
}

impl Rooms {
    /// Just what a replica needs is lent; every byte is zero.
    pub fn empty() -> Rooms {
        Rooms {
            counters: [0; regions::COUNTERS],
            memory: vec![0; MEMORY_ROOM],
            store: vec![0; STORE_ROOM * regions::BLOCK],
            output: vec![UNWRITTEN; OUTPUT_ROOM],
            lent: [regions::MEMORY, regions::STORE / regions::BLOCK, regions::OUTPUT],
        }
    }

    pub fn regions(&mut self) -> Regions<'_> {
        let [memory, store, output] = self.lent;
        Regions {
            counters: &mut self.counters,
            memory: &mut self.memory[..memory],
            store: &mut self.store[..store * regions::BLOCK],
            output: &mut self.output[..output],
        }
    }

    /// The record that lends them.
    pub fn encode(&self, seed: u64) -> Vec<u8> {
        let mut bytes = Vec::with_capacity(LEND_LENGTH);
        bytes.extend_from_slice(&(LEND_LENGTH as u32).to_le_bytes());
        bytes.extend_from_slice(&LEND.to_le_bytes());
        bytes.extend_from_slice(&[0; 2]);
        let [memory, store, output] = self.lent.map(|length| length as u64);
        for number in [seed, memory, store, output] {
            bytes.extend_from_slice(&number.to_le_bytes());
        }
        for part in [&self.counters[..], &self.memory, &self.store] {
            bytes.extend_from_slice(part);
        }
        bytes
    }

    /// None if it isn't a record that lends. No more is lent than there is.
    fn decode(record: &[u8]) -> Option<Rooms> {
        if record.len() != LEND_LENGTH || wire::kind_of(record) != LEND {
            return None;
        }
        let mut rooms = Rooms::empty();
        rooms.lent = [(16, MEMORY_ROOM), (24, STORE_ROOM), (32, OUTPUT_ROOM)]
            .map(|(at, most)| u64_at(record, at).min(most as u64) as usize);
        let mut rest = &record[HEAD..];
        for part in [&mut rooms.counters[..], &mut rooms.memory, &mut rooms.store] {
            let (bytes, left) = rest.split_at(part.len());
            part.copy_from_slice(bytes);
            rest = left;
        }
        Some(rooms)
    }

    /// One record as a call on what is lent.
    pub fn step(&mut self, record: &[u8]) -> Reply {
        if let Some((numbers, leaders)) = opening(record) {
            return self.regions().open(numbers.map(u64::from), leaders);
        }
        run::judge_framing(record)?;
        self.regions().call(|replica, out| run::step(replica, record, out))
    }

    /// Of counters, memory, store and output.
    fn digests(&self) -> [u64; 4] {
        [&self.counters[..], &self.memory, &self.store, &self.output].map(digest)
    }
}

/// An opening's five numbers and its leader list, of any length and content.
fn opening(record: &[u8]) -> Option<([u16; 5], &[u8])> {
    let (head, leaders) = record.split_at_checked(wire::OPENING)?;
    Some((run::opening(head)?, leaders))
}

/// A number by which two contents of a region are told apart, made of sums and remainders alone.
fn digest(bytes: &[u8]) -> u64 {
    bytes.iter().fold(1, |sum, &byte| (sum * 1_000_000_007 + u64::from(byte)) % 4_294_967_311)
}

/// Runs a whole input; it ends where no record is left, or none that can be cut off.
pub fn run(input: &[u8], lines: &mut impl Write) -> io::Result<()> {
    let mut rooms = Rooms::empty();
    let mut rest = input;
    let mut call = 0u64;
    while let Some((record, left)) = cut(rest) {
        rest = left;
        if let Some(lent) = Rooms::decode(record) {
            rooms = lent;
            call = 0;
            write!(lines, "state {}", u64_at(record, 8))?;
        } else {
            call += 1;
            let reply = rooms.step(record);
            write_call(lines, call, reply, &rooms)?;
        }
        let [counters, memory, store, output] = rooms.digests();
        writeln!(lines, " {counters} {memory} {store} {output}")?;
    }
    Ok(())
}

fn write_call(lines: &mut impl Write, call: u64, reply: Reply, rooms: &Rooms) -> io::Result<()> {
    let [view, timed, height] = [0, 8, regions::COUNTERS - 8].map(|at| u64_at(&rooms.counters, at));
    let written = &rooms.output[..reply.unwrap_or(0)];
    write!(lines, "{call} {} {view} {timed} {height} {}", answer(reply), run::hex(written))
}

/// The next record by its length field; only one that lends may be longer than a replica's.
fn cut(input: &[u8]) -> Option<(&[u8], &[u8])> {
    let lends = input.len() >= LEND_LENGTH && wire::kind_of(input) == LEND;
    if lends && wire::u32_at(input, 0) as usize == LEND_LENGTH {
        return Some(input.split_at(LEND_LENGTH));
    }
    run::cut(input)
}
