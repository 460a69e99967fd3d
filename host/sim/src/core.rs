//! What the simulation asks of a replica.

use replica::Contents;

/// One replica as a step machine: calls over bytes and numbers. To save is to clone, to restore is to put the clone
/// back. A refused call changes nothing and writes nothing.
pub trait Core: Clone {
    /// What an opening is told beside the settings, such as deliberate errors.
    type Options: Copy;

    /// Opens replica `own` with a leader list, or gives the refusal's number.
    fn open(options: Self::Options, f: u64, c: u64, k: u64, n: u64, own: u64, leaders: &[u8]) -> Result<Self, u16>;

    /// Each call answers 0 or the refusal's number, and appends what it writes to `output`.
    fn record(&mut self, bytes: &[u8], output: &mut Vec<u8>) -> u16;
    fn timer(&mut self, view: u64, output: &mut Vec<u8>) -> u16;
    fn propose(&mut self, name: [u8; 32], output: &mut Vec<u8>) -> u16;

    /// The same with contents: of the block, where a record brings one.
    fn record_with(&mut self, bytes: &[u8], contents: &[u8], output: &mut Vec<u8>) -> u16;
    fn propose_with(&mut self, name: [u8; 32], contents: &[u8], output: &mut Vec<u8>) -> u16;
    /// Proposes contents by the name that they make on the safe block.
    fn propose_contents(&mut self, contents: &[u8], output: &mut Vec<u8>) -> u16;

    fn view(&self) -> u64;
    /// The highest view that it sent a timeout for.
    fn timed(&self) -> u64;
    /// The tip's height.
    fn height(&self) -> u64;
}

/// The other implementation, with any of its deliberate errors.
impl Core for oracle::Replica {
    type Options = oracle::Faults;

    fn open(faults: oracle::Faults, f: u64, c: u64, k: u64, n: u64, own: u64, leaders: &[u8]) -> Result<Self, u16> {
        let opened = oracle::Replica::open(f, c, k, n, own, leaders);
        opened.map(|replica| replica.with_faults(faults)).map_err(oracle::Refusal::number)
    }

    fn record(&mut self, bytes: &[u8], output: &mut Vec<u8>) -> u16 {
        oracle::answer(oracle::Replica::record(self, bytes, output))
    }

    fn timer(&mut self, view: u64, output: &mut Vec<u8>) -> u16 {
        oracle::answer(oracle::Replica::timer(self, oracle::View(view), output))
    }

    fn propose(&mut self, name: [u8; 32], output: &mut Vec<u8>) -> u16 {
        oracle::answer(oracle::Replica::propose(self, name, output))
    }

    fn record_with(&mut self, bytes: &[u8], contents: &[u8], output: &mut Vec<u8>) -> u16 {
        oracle::answer(oracle::Replica::record_with(self, bytes, contents, output))
    }

    fn propose_with(&mut self, name: [u8; 32], contents: &[u8], output: &mut Vec<u8>) -> u16 {
        oracle::answer(oracle::Replica::propose_with(self, name, contents, output))
    }

    /// It knows the safe block; the library's crate tries those that may be it.
    fn propose_contents(&mut self, contents: &[u8], output: &mut Vec<u8>) -> u16 {
        let block = self.proposed(oracle::GENESIS).unwrap_or(oracle::Block::GENESIS);
        let name = oracle::block_name(block.parent, block.height, contents).unwrap_or(oracle::GENESIS);
        Core::propose_with(self, name, contents, output)
    }

    fn view(&self) -> u64 {
        self.counters.view.0
    }

    fn timed(&self) -> u64 {
        self.counters.timed.0
    }

    fn height(&self) -> u64 {
        self.counters.tip.height.0
    }
}

/// The proved library. Its replica isn't to be cloned by a host that runs it; here a clone is a save that is restored.
pub struct Proved(replica::Replica);

impl Proved {
    pub fn replica(&self) -> &replica::Replica {
        &self.0
    }
}

impl Clone for Proved {
    fn clone(&self) -> Proved {
        Proved(replica::Replica::restore(&self.0.save()).expect("what a call left"))
    }
}

/// The answer's number; what was written is appended.
fn answer(reply: Result<replica::Accepted<'_>, replica::Refusal>, output: &mut Vec<u8>) -> u16 {
    match reply {
        Ok(accepted) => {
            output.extend_from_slice(accepted.unsaved().bytes());
            0
        }
        Err(refusal) => refusal.number() as u16,
    }
}

impl Core for Proved {
    type Options = ();

    fn open((): (), f: u64, c: u64, k: u64, n: u64, own: u64, leaders: &[u8]) -> Result<Self, u16> {
        let opened = replica::Replica::open(replica::Settings { f, c, k, n }, own, leaders);
        opened.map(Proved).map_err(|refusal| refusal.number() as u16)
    }

    fn record(&mut self, bytes: &[u8], output: &mut Vec<u8>) -> u16 {
        answer(self.0.record(bytes), output)
    }

    fn timer(&mut self, view: u64, output: &mut Vec<u8>) -> u16 {
        answer(self.0.timer(replica::View(view)), output)
    }

    fn propose(&mut self, name: [u8; 32], output: &mut Vec<u8>) -> u16 {
        answer(self.0.propose(replica::Name { bytes: name }), output)
    }

    fn record_with(&mut self, bytes: &[u8], contents: &[u8], output: &mut Vec<u8>) -> u16 {
        answer(self.0.record_with(bytes, Contents(contents)), output)
    }

    fn propose_with(&mut self, name: [u8; 32], contents: &[u8], output: &mut Vec<u8>) -> u16 {
        answer(self.0.propose_with(replica::Name { bytes: name }, Contents(contents)), output)
    }

    fn propose_contents(&mut self, contents: &[u8], output: &mut Vec<u8>) -> u16 {
        answer(self.0.propose_contents(Contents(contents)).map(|(_, accepted)| accepted), output)
    }

    fn view(&self) -> u64 {
        self.0.view().0
    }

    fn timed(&self) -> u64 {
        self.0.timed().0
    }

    fn height(&self) -> u64 {
        self.0.tip().height.0
    }
}
