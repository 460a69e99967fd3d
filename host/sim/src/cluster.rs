//! A cluster of honest replicas under the premises of 01's "A run of the ring": every call goes through here, and
//! after each one the claim of demand 3 is checked.

use std::collections::HashMap;
use std::rc::Rc;

use oracle::wire::{self, kind};
use oracle::{block_name, Leaders, Name, Protocol, View};

use crate::chain::{Rows, Violation};
use crate::core::Core;
use crate::coverage::{Call, Coverage, Row, Tally};
use crate::leaders;
use crate::ledger::Ledger;
use crate::naming::Naming;

/// 01: "The output region has 32,768 bytes; each call's output must be shown to fit."
const OUTPUT: usize = 32_768;

/// What came of a call.
#[derive(Clone, Copy, Debug, PartialEq, Eq)]
pub enum Outcome {
    Accepted,
    Refused(u16),
    /// It would be accepted, but the premises don't allow it: nothing happened, and it is no call of the run.
    Barred,
}

/// What an opening is refused for.
#[derive(Clone, Copy, Debug, PartialEq, Eq)]
pub enum RefusedOpening {
    Own,
    Settings,
    NoList,
    LongList,
    OutsideList,
}

impl RefusedOpening {
    pub const ALL: [RefusedOpening; 5] = [
        RefusedOpening::Own,
        RefusedOpening::Settings,
        RefusedOpening::NoList,
        RefusedOpening::LongList,
        RefusedOpening::OutsideList,
    ];
}

pub struct Cluster<C: Core> {
    protocol: Protocol,
    leaders: Leaders,
    options: C::Options,
    /// Honest replicas by number; none in the place of a Byzantine one.
    replicas: Vec<Option<C>>,
    tallies: Vec<Tally>,
    ledger: Ledger,
    rows: Rows,
    output: Vec<u8>,
    /// The contents of own proposals, in a run in which every block comes with its contents.
    contents: Option<HashMap<Name, Rc<[u8]>>>,
    /// What the last accepted call sent, releases left out.
    pub sent: Vec<Rc<[u8]>>,
    pub coverage: Coverage,
    calls: u64,
}

impl<C: Core> Cluster<C> {
    /// Opens the honest replicas, all with the same leader list. `byzantine` is a set of at most f replicas.
    pub fn open(options: C::Options, protocol: Protocol, leaders: Leaders, byzantine: u64) -> Cluster<C> {
        let settings = protocol.settings;
        assert!(byzantine.count_ones() <= settings.f() && byzantine & !settings.everyone() == 0);
        let [f, c, k, n] = [settings.f(), settings.c(), settings.k(), settings.n()].map(u64::from);
        let open = |own: u64| {
            let honest = byzantine >> own & 1 == 0;
            honest.then(|| C::open(options, f, c, k, n, own, leaders.list()).expect("settings are good"))
        };
        let mut coverage = Coverage::default();
        leaders::note(&leaders, settings, settings.everyone() & !byzantine, &mut coverage);
        Cluster {
            protocol,
            leaders,
            options,
            replicas: (0..n).map(open).collect(),
            tallies: vec![Tally::default(); n as usize],
            ledger: Ledger::new(n as u32, settings.everyone() & !byzantine),
            rows: Rows::new(n as usize),
            output: Vec::with_capacity(OUTPUT),
            contents: None,
            sent: Vec::new(),
            coverage,
            calls: 0,
        }
    }

    /// The same for a run whose names are made so. By contents no block is taken without them: 02's "every honest box of
    /// the ring takes only checked blocks, own proposals included".
    pub fn named(mut self, naming: &Naming) -> Cluster<C> {
        self.contents = naming.is_by_contents().then(HashMap::new);
        self.coverage.add(Row::ByContents, u64::from(self.is_checked()));
        self
    }

    /// Whether every block comes with its contents.
    pub fn is_checked(&self) -> bool {
        self.contents.is_some()
    }

    /// The contents of a block that an honest replica proposed.
    pub fn contents(&self, name: &Name) -> Option<Rc<[u8]>> {
        self.contents.as_ref()?.get(name).cloned()
    }

    pub fn protocol(&self) -> &Protocol {
        &self.protocol
    }

    pub fn n(&self) -> usize {
        self.replicas.len()
    }

    /// The leader of a view, by the list that all were opened with.
    pub fn leader(&self, view: u64) -> usize {
        self.leaders.leader(View(view)).into()
    }

    pub fn ledger(&self) -> &Ledger {
        &self.ledger
    }

    pub fn rows(&self) -> &Rows {
        &self.rows
    }

    pub fn violation(&self) -> Option<Violation> {
        self.rows.violation()
    }

    /// Accepted and refused calls so far.
    pub fn calls(&self) -> u64 {
        self.calls
    }

    pub fn is_honest(&self, replica: usize) -> bool {
        self.replicas[replica].is_some()
    }

    pub fn replica(&self, replica: usize) -> &C {
        self.replicas[replica].as_ref().expect("an honest replica")
    }

    fn replica_mut(&mut self, replica: usize) -> &mut C {
        self.replicas[replica].as_mut().expect("an honest replica")
    }

    pub fn view(&self, replica: usize) -> u64 {
        self.replica(replica).view()
    }

    pub fn record(&mut self, replica: usize, bytes: &[u8]) -> Outcome {
        let permitted = self.ledger.permits(bytes);
        self.call(replica, Call::Record(bytes, None), permitted)
    }

    pub fn record_with(&mut self, replica: usize, bytes: &[u8], contents: &[u8]) -> Outcome {
        let permitted = self.ledger.permits(bytes);
        self.call(replica, Call::Record(bytes, Some(contents)), permitted)
    }

    pub fn timer(&mut self, replica: usize, view: u64) -> Outcome {
        self.call(replica, Call::Timer(view), true)
    }

    pub fn propose(&mut self, replica: usize, name: Name) -> Outcome {
        // A known name might come out with another parent than the one that the run has fixed.
        let fresh = self.ledger.block(&name).is_none();
        self.call(replica, Call::Propose(name, None), fresh)
    }

    /// Any name may be given: with contents the right one alone is taken.
    pub fn propose_with(&mut self, replica: usize, name: Name, contents: &[u8]) -> Outcome {
        self.call(replica, Call::Propose(name, Some(contents)), true)
    }

    pub fn propose_contents(&mut self, replica: usize, contents: &[u8]) -> Outcome {
        self.call(replica, Call::ProposeContents(contents), true)
    }

    /// An opening that is refused: own number n, another n than the settings give, or a list that isn't taken. Writes
    /// nothing.
    pub fn refused_opening(&mut self, replica: usize, refused: RefusedOpening) {
        let settings = self.protocol.settings;
        let [f, c, k, n] = [settings.f(), settings.c(), settings.k(), settings.n()].map(u64::from);
        let (own, list) = (replica as u64, self.leaders.list());
        let reply = match refused {
            RefusedOpening::Own => C::open(self.options, f, c, k, n, n, list),
            RefusedOpening::Settings => C::open(self.options, f, c, k, n + 1, own, list),
            RefusedOpening::NoList => C::open(self.options, f, c, k, n, own, &[]),
            RefusedOpening::LongList => C::open(self.options, f, c, k, n, own, &[0; Leaders::MOST + 1]),
            RefusedOpening::OutsideList => C::open(self.options, f, c, k, n, own, &[0, n as u8]),
        };
        let answer = reply.err().unwrap_or(0);
        assert_eq!(answer, 1, "{refused:?}");
        self.coverage.opening(answer);
        self.calls += 1;
    }

    /// A call that is cut off: "nothing of the cut call is sent or released", and the replica goes on from what its
    /// last finished call left.
    pub fn cut_off(&mut self, replica: usize, bytes: &[u8]) {
        let saved = self.save(replica);
        let mut output = std::mem::take(&mut self.output);
        output.clear();
        self.replica_mut(replica).record(bytes, &mut output);
        self.output = output;
        self.restore(replica, saved);
        self.coverage.add(Row::CutOff, 1);
    }

    pub fn save(&self, replica: usize) -> C {
        self.replica(replica).clone()
    }

    /// Puts a saved state back. Only the state that the last finished call left keeps to the premises.
    pub fn restore(&mut self, replica: usize, saved: C) {
        *self.replica_mut(replica) = saved;
    }

    fn call(&mut self, replica: usize, call: Call<'_>, permitted: bool) -> Outcome {
        let saved = (!permitted).then(|| self.save(replica));
        let view = self.view(replica);
        let mut output = std::mem::take(&mut self.output);
        output.clear();
        self.sent.clear();
        let answer = perform(self.replica_mut(replica), &call, &mut output);
        if answer == 0 {
            self.assert_named(&call, &output);
        }
        let outcome = match (answer, saved) {
            (0, Some(saved)) => {
                self.restore(replica, saved);
                self.coverage.add(Row::Barred, 1);
                Outcome::Barred
            }
            (0, None) => {
                self.finish(replica, view, &call, &output);
                Outcome::Accepted
            }
            _ => Outcome::Refused(answer),
        };
        if outcome != Outcome::Barred {
            self.coverage.answer(&call, answer);
            self.calls += 1;
        }
        self.output = output;
        outcome
    }

    /// Where blocks come with their contents, the premise on names isn't asked for, it is found to hold: the name of an
    /// accepted block or an own proposal is the digest, and the run has given it no other parent or height.
    fn assert_named(&self, call: &Call<'_>, output: &[u8]) {
        let brought = match call {
            Call::Record(bytes, _) => Some(*bytes),
            _ => None,
        };
        for record in brought.into_iter().chain(wire::records(output)) {
            match (wire::block_of(record), call.contents()) {
                (Some(_), None) => assert!(!self.is_checked(), "a block was taken without its contents"),
                (Some(block), Some(contents)) => {
                    let digest = block_name(block.parent, block.height, contents);
                    assert!(digest == Ok(block.name), "a block was taken whose name isn't the digest");
                    assert!(self.ledger.permits_block(&block), "two blocks of one name");
                }
                (None, _) => {}
            }
        }
    }

    /// Enters an accepted call into the books and checks the claim.
    fn finish(&mut self, replica: usize, view: u64, call: &Call<'_>, output: &[u8]) {
        assert!(output.len() <= OUTPUT);
        if let Call::Record(bytes, _) = call {
            self.ledger.accept(bytes);
            self.tallies[replica].note(bytes);
        }
        for record in wire::records(output) {
            assert_eq!(usize::from(wire::sender_of(record)), replica);
            if wire::kind_of(record) != kind::RELEASE {
                let record: Rc<[u8]> = Rc::from(record);
                self.ledger.make(replica, &record);
                self.tallies[replica].note(&record);
                self.keep_contents(&record, call);
                self.sent.push(record);
            }
        }
        self.take_releases(replica, output);
        self.coverage.accepted(&self.protocol, view, call, output);
        self.coverage.add(Row::Skipped, (self.view(replica) - view).saturating_sub(1));
    }

    /// A host keeps the contents of what its replica proposes: whoever gets the proposal or asks for the block gets them.
    fn keep_contents(&mut self, made: &[u8], call: &Call<'_>) {
        if let (kind::PROPOSAL, Some(book), Some(contents)) = (wire::kind_of(made), &mut self.contents, call.contents())
        {
            book.insert(wire::name_at(made, 16), Rc::from(contents));
        }
    }

    fn take_releases(&mut self, replica: usize, output: &[u8]) {
        let mut releases = wire::records(output).filter(|record| wire::kind_of(record) == kind::RELEASE).peekable();
        let mut walked = 0;
        while let Some(record) = releases.next() {
            let (view, name) = (wire::u64_at(record, 8), wire::name_at(record, 16));
            self.rows.release(replica, name, wire::u64_at(record, 48), self.ledger.block(&name));
            walked += 1;
            if releases.peek().is_none_or(|next| wire::u64_at(next, 8) != view) {
                self.note_walk(replica, view, &name, walked);
                walked = 0;
            }
        }
    }

    fn note_walk(&mut self, replica: usize, view: u64, name: &Name, blocks: u64) {
        self.coverage.add(Row::RuleD, 1);
        self.coverage.add(Row::LongWalk, u64::from(blocks > 1));
        let decided = self.tallies[replica].release(&self.protocol, view, name);
        self.coverage.add(decided.expect("a release has its quorum"), 1);
    }
}

fn perform<C: Core>(replica: &mut C, call: &Call<'_>, output: &mut Vec<u8>) -> u16 {
    match call {
        Call::Record(bytes, None) => replica.record(bytes, output),
        Call::Record(bytes, Some(contents)) => replica.record_with(bytes, contents, output),
        Call::Timer(view) => replica.timer(*view, output),
        Call::Propose(name, None) => replica.propose(*name, output),
        Call::Propose(name, Some(contents)) => replica.propose_with(*name, contents, output),
        Call::ProposeContents(contents) => replica.propose_contents(contents, output),
    }
}
