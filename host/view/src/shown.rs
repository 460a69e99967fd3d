//! What the timeline asks of a replica.

use oracle::{Faults, Name, Refusal};
use sim::{Core, Proved};

use crate::recording::Call;

/// What the call on timeout certificates (02, 2.3) answers.
#[derive(Clone, Copy, Debug, PartialEq, Eq)]
pub enum Decisive {
    /// The lowest sender whose timeout, taken out, leaves enough timeouts and another safe block.
    Sender(u16),
    Nobody,
}

impl From<Option<u16>> for Decisive {
    fn from(sender: Option<u16>) -> Decisive {
        sender.map_or(Decisive::Nobody, Decisive::Sender)
    }
}

/// A replica whose calls can be shown.
pub trait Shown: Core {
    /// The lock's view and name; view 0 is the genesis certificate.
    fn lock(&self) -> (u64, Name);

    /// Whose timeout decided a timeout certificate that this replica accepted or formed, as its own implementation answers.
    /// None where that can't be asked: the call knows nothing of errors that are built in.
    fn decisive(&self, certificate: &[u8]) -> Option<Decisive>;
}

const GOOD: &str = "what a replica accepts or forms is good";

impl Shown for oracle::Replica {
    fn lock(&self) -> (u64, Name) {
        (self.counters.lock.view.0, self.counters.lock.name)
    }

    fn decisive(&self, certificate: &[u8]) -> Option<Decisive> {
        let settings = self.settings();
        let [f, c, k, n] = [settings.f(), settings.c(), settings.k(), settings.n()].map(u64::from);
        let ask = || oracle::decisive(f, c, k, n, certificate).expect(GOOD);
        (self.protocol().faults == Faults::NONE).then(|| ask().into())
    }
}

impl Shown for Proved {
    fn lock(&self) -> (u64, Name) {
        let lock = self.replica().lock();
        (lock.view.0, lock.name.bytes)
    }

    fn decisive(&self, certificate: &[u8]) -> Option<Decisive> {
        let sender = replica::decisive_timeout(self.replica().settings(), certificate).expect(GOOD);
        Some(sender.map(|sender| sender as u16).into())
    }
}

/// One record as the run program takes it: kinds 10 and 11 are calls of their own, every other record goes to the
/// replica. Gives 0 or the refusal's number.
pub fn hand_in<C: Core>(replica: &mut C, record: &[u8], output: &mut Vec<u8>) -> u16 {
    if let Err(refusal) = oracle::run::judge_framing(record) {
        return Refusal::number(refusal);
    }
    match Call::of(record) {
        Call::Timer(view) => replica.timer(view, output),
        Call::Propose(name) => replica.propose(name, output),
        _ => replica.record(record, output),
    }
}
