//! Scripted runs: who hears what is written out step by step. A call that is refused is simply refused.

use std::rc::Rc;

use oracle::wire::{self, kind, Record};
use oracle::{Block, Certificate, Height, Leaders, Name, Protocol, Timeout, View, Vote};

use crate::cluster::{Cluster, Outcome};
use crate::core::Core;
use crate::words;

pub struct Script<C: Core> {
    pub cluster: Cluster<C>,
    /// All that honest replicas sent, with the sender, in order.
    sent: Vec<(usize, Rc<[u8]>)>,
    /// All calls, as the run program reads them: the replica and the record, openings left out.
    calls: Vec<(usize, Vec<u8>)>,
    /// The call with which each step begins.
    steps: Vec<usize>,
    /// What happened, in words.
    trace: Vec<String>,
    /// How many releases of each replica stand in the trace.
    told: Vec<usize>,
}

impl<C: Core> Script<C> {
    /// The leader list is 0 to n−1.
    pub fn open(options: C::Options, protocol: Protocol, byzantine: &[usize]) -> Script<C> {
        Self::open_led(options, protocol, Leaders::in_turn(protocol.settings), byzantine)
    }

    pub fn open_led(options: C::Options, protocol: Protocol, leaders: Leaders, byzantine: &[usize]) -> Script<C> {
        let byzantine = byzantine.iter().fold(0, |set, replica| set | 1 << replica);
        let cluster: Cluster<C> = Cluster::open(options, protocol, leaders, byzantine);
        let told = vec![0; cluster.n()];
        Script { cluster, sent: Vec::new(), calls: Vec::new(), steps: Vec::new(), trace: Vec::new(), told }
    }

    /// A new step of the story begins with the next call.
    pub fn step(&mut self) {
        self.steps.push(self.calls.len());
    }

    pub fn steps(&self) -> &[usize] {
        &self.steps
    }

    pub fn calls(&self) -> &[(usize, Vec<u8>)] {
        &self.calls
    }

    pub fn trace(&self) -> &[String] {
        &self.trace
    }

    fn honest(&self) -> Vec<usize> {
        (0..self.cluster.n()).filter(|&replica| self.cluster.is_honest(replica)).collect()
    }

    // ------------------------------------------------------------ calls

    pub fn propose(&mut self, leader: usize, name: Name) -> Outcome {
        let outcome = self.cluster.propose(leader, name);
        let mut record = Vec::new();
        wire::write_propose(&mut record, name);
        self.calls.push((leader, record));
        self.note(leader, format!("propose {}", words::name(&name)), outcome);
        outcome
    }

    /// The clocks of these replicas run out in the views where they are.
    pub fn timers(&mut self, replicas: &[usize]) {
        for &replica in replicas {
            let view = self.cluster.view(replica);
            let outcome = self.cluster.timer(replica, view);
            let mut record = Vec::new();
            wire::write_timer(&mut record, View(view));
            self.calls.push((replica, record));
            self.note(replica, format!("timer of view {view}"), outcome);
        }
    }

    fn hand_in(&mut self, to: usize, record: &[u8]) -> Outcome {
        let outcome = self.cluster.record(to, record);
        assert_ne!(outcome, Outcome::Barred, "a script keeps to the premises");
        self.calls.push((to, record.to_vec()));
        self.note(to, words::describe(record, self.cluster.protocol()), outcome);
        outcome
    }

    fn note(&mut self, replica: usize, call: String, outcome: Outcome) {
        let answer = match outcome {
            Outcome::Accepted => self.describe_accepted(replica),
            Outcome::Refused(number) => format!("refused {number}"),
            Outcome::Barred => "barred by the premises".to_string(),
        };
        self.trace.push(format!("replica {replica} <- {call}: {answer}"));
        if outcome == Outcome::Accepted {
            self.sent.extend(self.cluster.sent.iter().map(|record| (replica, record.clone())));
        }
    }

    fn describe_accepted(&mut self, replica: usize) -> String {
        let protocol = self.cluster.protocol();
        let mut words = vec!["accepted".to_string()];
        words.extend(self.cluster.sent.iter().map(|record| format!("sends {}", words::describe(record, protocol))));
        let row = self.cluster.rows().row(replica);
        words.extend(row[self.told[replica]..].iter().map(|name| format!("RELEASES {}", words::name(name))));
        self.told[replica] = row.len();
        words.join("; ")
    }

    /// A replica's row of releases, each block by its letter.
    pub fn row(&self, replica: usize) -> String {
        self.cluster.rows().row(replica).iter().map(words::name).collect()
    }

    // ------------------------------------------------------------ what honest replicas made

    /// The last record of this kind and view that a replica sent.
    fn made(&self, from: usize, wanted: u16, view: u64) -> Option<Rc<[u8]>> {
        let fits = |record: &[u8]| wire::kind_of(record) == wanted && wire::u64_at(record, 8) == view;
        let last = self.sent.iter().rev().find(|(sender, record)| *sender == from && fits(record));
        last.map(|(_, record)| record.clone())
    }

    /// Hands what each of `from` made of this kind and view to each of `to`; nothing where it made none.
    fn deliver(&mut self, from: &[usize], wanted: u16, view: u64, to: &[usize]) {
        for &sender in from {
            if let Some(record) = self.made(sender, wanted, view) {
                for &replica in to.iter().filter(|&&replica| replica != sender) {
                    self.hand_in(replica, &record);
                }
            }
        }
    }

    pub fn proposal(&mut self, from: usize, view: u64, to: &[usize]) {
        self.deliver(&[from], kind::PROPOSAL, view, to);
    }

    pub fn votes(&mut self, from: &[usize], view: u64, to: &[usize]) {
        self.deliver(from, kind::VOTE, view, to);
    }

    pub fn commits(&mut self, from: &[usize], view: u64, to: &[usize]) {
        self.deliver(from, kind::COMMIT, view, to);
    }

    pub fn timeouts(&mut self, from: &[usize], view: u64, to: &[usize]) {
        self.deliver(from, kind::TIMEOUT, view, to);
    }

    pub fn certificate(&mut self, from: usize, view: u64, to: &[usize]) {
        self.deliver(&[from], kind::BLOCK_CERTIFICATE, view, to);
    }

    // ------------------------------------------------------------ what Byzantine replicas send

    /// Hands a Byzantine replica's record to each of `to`.
    pub fn lie(&mut self, record: &[u8], to: &[usize]) {
        for &replica in to {
            self.hand_in(replica, record);
        }
    }

    /// A block by itself, as hosts fetch it: its sender is free.
    pub fn block(&mut self, block: Block, to: &[usize]) {
        let mut record = Vec::new();
        wire::write_block(&mut record, 0, &block);
        self.lie(&record, to);
    }

    /// A timeout certificate of timeouts that honest replicas made and of others; those not made are left out.
    pub fn timeout_certificate(&self, sender: usize, view: u64, honest: &[usize], others: &[Timeout]) -> Vec<u8> {
        let made = honest.iter().filter_map(|&from| self.made(from, kind::TIMEOUT, view));
        let made = made.map(|record| wire::read_timeout(&record));
        let mut timeouts: Vec<_> = made.chain(others.iter().copied()).collect();
        timeouts.sort_by_key(|timeout| timeout.sender);
        let mut record = Vec::new();
        wire::write_timeout_certificate(&mut record, sender as u16, View(view), &timeouts);
        record
    }

    // ------------------------------------------------------------ ends

    /// From now on every record reaches every honest replica, leaders propose and clocks run; Byzantine replicas are
    /// silent. Gives true once every honest replica has released a block beyond what was released before.
    pub fn heal(&mut self) -> bool {
        let goal = self.cluster.rows().longest() + 1;
        (0..30).any(|round| {
            let moved = self.exchange() | self.propose_anything(round);
            if !moved {
                self.timers(&self.honest());
            }
            self.honest().iter().all(|&replica| self.cluster.rows().row(replica).len() >= goal)
        })
    }

    /// Hands all records ever sent, and all blocks, to everyone; true if one was accepted.
    fn exchange(&mut self) -> bool {
        let mut moved = false;
        for (from, record) in self.sent.clone() {
            for to in self.honest() {
                moved |= to != from && self.hand_in(to, &record) == Outcome::Accepted;
            }
            let block = match wire::read(&record, self.cluster.n() as u32) {
                Ok(Record::Vote { vote, .. }) => vote.name,
                _ => continue,
            };
            moved |= self.fetch(&block);
        }
        moved
    }

    /// Gives everyone a block and those below it.
    fn fetch(&mut self, name: &Name) -> bool {
        let mut moved = false;
        for block in self.cluster.ledger().path(name, 0) {
            for to in self.honest() {
                let mut record = Vec::new();
                wire::write_block(&mut record, 0, &block);
                moved |= self.hand_in(to, &record) == Outcome::Accepted;
            }
        }
        moved
    }

    fn propose_anything(&mut self, round: u8) -> bool {
        let honest = self.honest();
        let name = |replica: usize| [200 + round, replica as u8, 1].repeat(11)[..32].try_into().unwrap();
        let proposed = |replica: &usize| self.propose(*replica, name(*replica)) == Outcome::Accepted;
        honest.into_iter().filter(proposed).count() > 0
    }
}

// ---------------------------------------------------------------- records

pub fn block(name: Name, parent: Name, height: u64) -> Block {
    Block { name, parent, height: Height(height) }
}

pub fn high_vote(view: u64, name: Name) -> Vote {
    Vote { view: View(view), name }
}

pub fn vote(sender: usize, view: u64, name: Name) -> Vec<u8> {
    let mut record = Vec::new();
    wire::write_vote(&mut record, sender as u16, high_vote(view, name));
    record
}

pub fn commit(sender: usize, view: u64, name: Name) -> Vec<u8> {
    let mut record = Vec::new();
    wire::write_commit(&mut record, sender as u16, high_vote(view, name));
    record
}

/// A timeout that carries the genesis certificate.
pub fn timeout(sender: usize, view: u64, high_vote: Vote) -> Timeout {
    Timeout { sender: sender as u16, view: View(view), high_vote, certificate: Certificate::GENESIS }
}

pub fn timeout_record(timeout: &Timeout) -> Vec<u8> {
    wire::raw_timeout(timeout).to_vec()
}

/// A proposal with this progress certificate, which gets the same sender.
pub fn proposal(sender: usize, view: u64, block: &Block, progress: &[u8]) -> Vec<u8> {
    let mut inner = Vec::new();
    wire::write_resent(&mut inner, sender as u16, progress);
    let mut record = Vec::new();
    wire::write_proposal(&mut record, sender as u16, View(view), block, &inner);
    record
}

/// The progress certificate of view 1.
pub fn genesis_certificate() -> Vec<u8> {
    let mut record = Vec::new();
    wire::write_block_certificate(&mut record, 0, &Certificate::GENESIS);
    record
}
