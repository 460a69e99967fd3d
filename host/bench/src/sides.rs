//! The two that are measured.

use oracle::{regions, Replica};
use replica::raw::{self, Lent};
use replica::{Block, Counters, Name, Settings};
use streams::{Call, Opening};

/// A replica that is opened anew for each stream and keeps its output buffer.
pub trait Side {
    fn open(&mut self, opening: Opening);
    /// Whether the call is accepted.
    fn make(&mut self, call: &Call) -> bool;
}

pub struct Oracle {
    replica: Replica,
    output: Vec<u8>,
}

impl Oracle {
    pub fn new(opening: Opening) -> Oracle {
        Oracle { replica: opening.open(), output: Vec::with_capacity(regions::OUTPUT) }
    }
}

impl Side for Oracle {
    fn open(&mut self, opening: Opening) {
        self.replica = opening.open();
    }

    fn make(&mut self, call: &Call) -> bool {
        self.output.clear();
        call.make(&mut self.replica, &mut self.output).is_ok()
    }
}

pub struct Library {
    counters: Counters,
    memory: Vec<u8>,
    store: Vec<Block>,
    output: Vec<u8>,
}

impl Library {
    pub fn new(opening: Opening) -> Library {
        let mut library = Library {
            counters: Counters::default(),
            memory: vec![0; raw::MEMORY],
            store: vec![Block::default(); raw::STORE],
            output: vec![0; raw::OUTPUT],
        };
        library.open(opening);
        library
    }
}

impl Side for Library {
    fn open(&mut self, opening: Opening) {
        let [f, c, k, n, own] = opening.numbers();
        let (settings, leaders) = (Settings { f, c, k, n }, opening.leaders.list());
        let reply = raw::open(&mut self.counters, &mut self.memory, &self.store, settings, own, leaders);
        assert_eq!(reply.refusal, 0, "settings and a list that opening takes");
    }

    fn make(&mut self, call: &Call) -> bool {
        let mut lent = Lent {
            counters: &mut self.counters,
            memory: &mut self.memory,
            store: &mut self.store,
            output: &mut self.output,
        };
        let reply = match call {
            Call::Record(bytes) => lent.record(bytes),
            Call::Timer(view) => lent.timer(*view),
            Call::Propose(name) => lent.propose(Name { bytes: *name }),
            Call::RecordWith(bytes, contents) => lent.record_with(bytes, contents),
            Call::ProposeWith(name, contents) => lent.propose_with(Name { bytes: *name }, contents),
        };
        reply.refusal == 0
    }
}
