//! A replica's life as a script: views that go well, views that time out, blocks that come in beside them.

use oracle::{wire, Block, Certificate, Height, Name, Replica, Timeout, View, Vote};
use streams::{Call, Opening, Random};

use crate::measure::{Mark, Script};

/// Makes the calls while an oracle replica takes them, so that each fits the state. Calls made while it is `timed` are
/// measured.
pub struct Life {
    pub timed: bool,
    replica: Replica,
    random: Random,
    /// The last proposed block.
    pub top: Block,
    script: Script,
}

impl Life {
    /// The last replica of a cluster with these settings. Names follow from the seed.
    pub fn new((f, c, k): (u64, u64, u64), seed: u64) -> Life {
        let n = 3 * f + 2 * c + k + 1;
        let opening = Opening::new(f, c, k, n - 1).expect("good settings");
        Life {
            timed: false,
            replica: opening.open(),
            random: Random::new(seed),
            top: Block::GENESIS,
            script: Script { opening, calls: Vec::new() },
        }
    }

    pub fn script(self) -> Script {
        self.script
    }

    pub fn view(&self) -> View {
        self.replica.counters.view
    }

    pub fn tip(&self) -> Block {
        self.replica.counters.tip
    }

    pub fn others(&self) -> u16 {
        self.replica.own()
    }

    /// As a hash would be: any bytes.
    fn name(&mut self) -> Name {
        let mut name = [0; 32];
        name.chunks_mut(8).for_each(|bytes| bytes.copy_from_slice(&self.random.number().to_le_bytes()));
        name
    }

    pub fn child(&mut self, parent: &Block) -> Block {
        Block { name: self.name(), parent: parent.name, height: Height(parent.height.0 + 1) }
    }

    /// Whether it is accepted.
    fn make(&mut self, call: Call) -> bool {
        let accepted = call.make(&mut self.replica, &mut Vec::new()).is_ok();
        let mark = if self.timed { Mark::of(&call, accepted) } else { Mark::Untimed };
        self.script.calls.push((call, mark));
        accepted
    }

    fn take(&mut self, write: impl FnOnce(&mut Vec<u8>)) {
        let mut record = Vec::new();
        write(&mut record);
        assert!(self.make(Call::Record(record)), "it fits the state");
    }

    pub fn hold(&mut self, block: &Block) {
        self.take(|record| wire::write_block(record, 0, block));
    }

    /// The current view's block, on the last one that was proposed: by its leader, or by this replica.
    pub fn propose(&mut self) {
        let block = self.child(&self.top.clone());
        let view = self.view();
        let leader = self.replica.leader(view);
        if leader == self.replica.own() {
            assert!(self.make(Call::Propose(block.name)), "it leads the view");
        } else {
            let mut progress = Vec::new();
            wire::write_resent(&mut progress, leader, self.replica.memory.entry.record());
            self.take(|record| wire::write_proposal(record, leader, view, &block, &progress));
        }
        self.top = block;
    }

    /// The next view's block, with a certificate of the current view for its parent.
    pub fn propose_next(&mut self, block: &Block) {
        let settings = self.replica.settings();
        let (view, next) = (self.view(), View(self.view().0 + 1));
        let leader = self.replica.leader(next);
        let signers = (1 << settings.block_quorum()) - 1;
        let mut progress = Vec::new();
        wire::write_block_certificate(&mut progress, leader, &Certificate::block(view, block.parent, signers));
        self.take(|record| wire::write_proposal(record, leader, next, block, &progress));
    }

    /// So many of the others vote in this view for this name.
    pub fn votes(&mut self, view: View, name: Name, count: u16) {
        (0..count).for_each(|sender| self.take(|record| wire::write_vote(record, sender, Vote { view, name })));
    }

    pub fn commits(&mut self, view: View, name: Name, count: u16) {
        (0..count).for_each(|sender| self.commit(view, name, sender));
    }

    pub fn commit(&mut self, view: View, name: Name, sender: u16) {
        self.take(|record| wire::write_commit(record, sender, Vote { view, name }));
    }

    /// The current view goes well: its block is proposed, all others vote and commit, and it is released.
    pub fn release(&mut self) {
        let view = self.view();
        self.propose();
        self.votes(view, self.top.name, self.others());
        self.commits(view, self.top.name, self.others());
        assert_eq!(self.tip(), self.top);
    }

    /// All others' timeouts of the current view, with the last vote and the lock. Those that come after the certificate was
    /// formed are refused.
    pub fn time_out(&mut self) {
        let view = self.view();
        let certificate = self.replica.counters.lock;
        let high_vote = last_vote(&certificate);
        for sender in 0..self.others() {
            let mut record = Vec::new();
            wire::write_timeout(&mut record, &Timeout { sender, view, high_vote, certificate });
            self.make(Call::Record(record));
        }
        assert_eq!(self.view(), View(view.0 + 1));
    }
}

/// The vote for what is certified; none for genesis.
fn last_vote(certificate: &Certificate) -> Vote {
    Vote { view: certificate.view, name: certificate.name }
}
