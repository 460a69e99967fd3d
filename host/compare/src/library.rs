//! The library's regions, with bytes before and behind that no call may touch.

use oracle::lent::Rooms;
use replica::raw::{self, Lent, Reply};
use replica::{Block, Counters, Name, Settings};
use streams::Call;

use crate::step::{AnyCall, Step};

/// Bytes on either side of memory and output, which so begin at an odd address; beside the store and the counters stands
/// one more of them.
const GUARD: usize = 61;
const GUARD_BYTE: u8 = 0xC3;

/// What the library is lent: `Rooms` in the types of its interface.
#[derive(Clone)]
pub struct Library {
    counters: [Counters; 3],
    memory: Vec<u8>,
    store: Vec<Block>,
    output: Vec<u8>,
}

impl Library {
    pub fn new(rooms: &Rooms) -> Library {
        let blocks = rooms.store.len() / size_of::<Block>();
        let mut library = Library {
            counters: [Counters::default(); 3],
            memory: guarded(&rooms.memory),
            store: vec![Block::default(); blocks + 2],
            output: guarded(&rooms.output),
        };
        for counters in &mut library.counters {
            raw::counters_bytes_mut(counters).fill(GUARD_BYTE);
        }
        raw::block_bytes_mut(&mut library.store).fill(GUARD_BYTE);
        raw::counters_bytes_mut(&mut library.counters[1]).copy_from_slice(&rooms.counters);
        raw::block_bytes_mut(&mut library.store[1..=blocks]).copy_from_slice(&rooms.store);
        library
    }

    /// The call on as much as the step lends.
    pub fn step(&mut self, step: &Step) -> Reply {
        let [memory, store, output] = step.lent;
        let mut lent = Lent {
            counters: &mut self.counters[1],
            memory: &mut self.memory[GUARD..GUARD + memory],
            store: &mut self.store[1..1 + store],
            output: &mut self.output[GUARD..GUARD + output],
        };
        match &step.call {
            AnyCall::Open([f, c, k, n, own], leaders) => {
                let settings = Settings { f: *f, c: *c, k: *k, n: *n };
                raw::open(lent.counters, lent.memory, lent.store, settings, *own, leaders)
            }
            AnyCall::Call(Call::Record(bytes)) => lent.record(bytes),
            AnyCall::Call(Call::Timer(view)) => lent.timer(*view),
            AnyCall::Call(Call::Propose(name)) => lent.propose(Name { bytes: *name }),
            AnyCall::Call(Call::RecordWith(bytes, contents)) => lent.record_with(bytes, contents),
            AnyCall::Call(Call::ProposeWith(name, contents)) => lent.propose_with(Name { bytes: *name }, contents),
        }
    }

    /// Counters, memory, store and output, each of the whole room.
    pub fn rooms(&self) -> [&[u8]; 4] {
        [
            raw::counters_bytes(&self.counters[1]),
            &self.memory[GUARD..self.memory.len() - GUARD],
            raw::block_bytes(&self.store[1..self.store.len() - 1]),
            &self.output[GUARD..self.output.len() - GUARD],
        ]
    }

    /// What a step that lends so much lends of counters, memory, store and output.
    pub fn lent(&self, [memory, store, output]: [usize; 3]) -> (Counters, &[u8], &[Block], &[u8]) {
        let memory = &self.memory[GUARD..GUARD + memory];
        (self.counters[1], memory, &self.store[1..1 + store], &self.output[GUARD..GUARD + output])
    }

    /// Whether the bytes around the rooms are what they were.
    pub fn guards_stand(&self) -> bool {
        let last = self.store.len() - 1;
        let guards = [
            raw::counters_bytes(&self.counters[0]),
            raw::counters_bytes(&self.counters[2]),
            &self.memory[..GUARD],
            &self.memory[self.memory.len() - GUARD..],
            raw::block_bytes(&self.store[..1]),
            raw::block_bytes(&self.store[last..]),
            &self.output[..GUARD],
            &self.output[self.output.len() - GUARD..],
        ];
        guards.iter().all(|guard| guard.iter().all(|&byte| byte == GUARD_BYTE))
    }

    /// Becomes the same as the other, of the same lengths, without new allocations.
    pub fn copy_from(&mut self, other: &Library) {
        self.counters = other.counters;
        self.memory.copy_from_slice(&other.memory);
        self.store.copy_from_slice(&other.store);
        self.output.copy_from_slice(&other.output);
    }
}

#[cfg(test)]
impl Library {
    /// Changes a byte of a room, numbered as in `rooms`.
    pub fn flip(&mut self, region: usize, at: usize) {
        let blocks = self.store.len() - 1;
        let room = match region {
            0 => raw::counters_bytes_mut(&mut self.counters[1]),
            1 => &mut self.memory[GUARD..],
            2 => raw::block_bytes_mut(&mut self.store[1..blocks]),
            _ => &mut self.output[GUARD..],
        };
        room[at] ^= 1;
    }

    /// Changes a byte of a guard, the one next to the room.
    pub fn flip_guard(&mut self, guard: usize) {
        let (blocks, memory, output) = (self.store.len() - 1, self.memory.len(), self.output.len());
        let (bytes, at) = match guard {
            0 => (raw::counters_bytes_mut(&mut self.counters[0]), 223),
            1 => (raw::counters_bytes_mut(&mut self.counters[2]), 0),
            2 => (&mut self.memory[..], GUARD - 1),
            3 => (&mut self.memory[..], memory - GUARD),
            4 => (raw::block_bytes_mut(&mut self.store[..1]), 71),
            5 => (raw::block_bytes_mut(&mut self.store[blocks..]), 0),
            6 => (&mut self.output[..], GUARD - 1),
            _ => (&mut self.output[..], output - GUARD),
        };
        bytes[at] ^= 1;
    }
}

fn guarded(bytes: &[u8]) -> Vec<u8> {
    [&[GUARD_BYTE; GUARD][..], bytes, &[GUARD_BYTE; GUARD]].concat()
}
