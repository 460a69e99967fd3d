//! The oracle on lent regions. Its replica is read from the bytes once and then kept beside them; each accepted call is
//! written back to them.

use oracle::lent::Rooms;
use oracle::{regions, Faults, Refusal, Replica, Reply};

use crate::step::{AnyCall, Step};

pub struct Expected {
    pub rooms: Rooms,
    /// None where refusal 2 turns the content away.
    pub replica: Option<Replica>,
    faults: Faults,
    output: Vec<u8>,
}

impl Expected {
    pub fn new(rooms: Rooms, faults: Faults) -> Expected {
        let mut expected = Expected { rooms, replica: None, faults, output: Vec::with_capacity(regions::OUTPUT) };
        expected.load();
        expected
    }

    /// The call on as much as the step lends.
    pub fn step(&mut self, step: &Step) -> Reply {
        self.rooms.lent = step.lent;
        match &step.call {
            AnyCall::Open(numbers, leaders) => {
                self.rooms.regions().open(*numbers, leaders)?;
                self.load();
                Ok(0)
            }
            AnyCall::Call(call) => {
                let replica = self.replica.as_mut().filter(|_| is_enough(step.lent)).ok_or(Refusal::Regions)?;
                self.output.clear();
                let written = call.make(replica, &mut self.output)?;
                self.rooms.output[..written].copy_from_slice(&self.output);
                self.rooms.regions().save(replica);
                Ok(written)
            }
        }
    }

    /// Counters, memory, store and output, each of the whole room.
    pub fn rooms(&self) -> [&[u8]; 4] {
        [&self.rooms.counters, &self.rooms.memory, &self.rooms.store, &self.rooms.output]
    }

    /// Reads the replica from the whole rooms.
    fn load(&mut self) {
        let Rooms { memory, store, output, .. } = &self.rooms;
        self.rooms.lent = [memory.len(), store.len() / regions::BLOCK, output.len()];
        self.replica = self.rooms.regions().load().map(|replica| replica.with_faults(self.faults));
    }
}

fn is_enough([memory, store, output]: [usize; 3]) -> bool {
    memory >= regions::MEMORY && store * regions::BLOCK >= regions::STORE && output >= regions::OUTPUT
}
