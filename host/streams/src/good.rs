//! Records that a replica in its present state takes, or nearly takes.

use oracle::{
    members, wire, BallotRows, Block, Certificate, Height, Name, Replica, Settings, Timeout, View, Vote, Window,
    GENESIS,
};

use crate::leaders::next_not_led;
use crate::random::Random;

/// Makes records for one replica.
pub struct Maker<'a> {
    pub random: &'a mut Random,
    pub replica: &'a Replica,
    /// Whether certificates of the last views may come.
    pub jumps: bool,
}

impl Maker<'_> {
    pub fn settings(&self) -> Settings {
        self.replica.settings()
    }

    pub fn view(&self) -> u64 {
        self.replica.counters.view.0
    }

    pub fn any_replica(&mut self) -> u16 {
        self.random.below(u64::from(self.settings().n())) as u16
    }

    /// One but the own; in a cluster of one a number that is no replica's.
    pub fn other_replica(&mut self) -> u16 {
        match u64::from(self.settings().n()) {
            1 => 1,
            n => ((u64::from(self.replica.own()) + 1 + self.random.below(n - 1)) % n) as u16,
        }
    }

    /// A name that isn't held, as good as surely. Many share all but one byte, so that order by bytes is tried.
    pub fn fresh_name(&mut self) -> Name {
        let mut name = [0x55; 32];
        match self.random.below(3) {
            0 => name[24..].copy_from_slice(&self.random.number().to_be_bytes()),
            1 => name[..8].copy_from_slice(&self.random.number().to_le_bytes()),
            _ => {
                for part in name.chunks_exact_mut(8) {
                    part.copy_from_slice(&self.random.number().to_le_bytes());
                }
            }
        }
        name
    }

    /// Some held block: the tip, the last one taken, or any.
    pub fn held_block(&mut self) -> Block {
        let blocks = self.replica.memory.store.blocks();
        match blocks.last() {
            None => self.replica.counters.tip,
            Some(last) => match self.random.below(4) {
                0 => self.replica.counters.tip,
                1 => *last,
                _ => self.random.pick(blocks),
            },
        }
    }

    /// A name that may stand in a vote: mostly of a held block.
    fn vote_name(&mut self) -> Name {
        let known = [self.replica.counters.high_vote.name, self.replica.counters.lock.name, self.held_block().name];
        let name = self.random.pick(&known);
        if name == GENESIS || self.random.chance(5) {
            return self.fresh_name();
        }
        name
    }

    /// A set of at least `quorum` replicas, often of just as many; of all where a fault asks for more.
    fn signers(&mut self, quorum: u32) -> u64 {
        let n = self.settings().n();
        let quorum = quorum.min(n);
        let count = if self.random.chance(60) { quorum } else { self.random.between(quorum.into(), n.into()) as u32 };
        self.random.subset(self.settings().everyone(), count)
    }

    /// A vote or commit of a replica that gave none in its view, mostly for the name that others gave.
    pub fn ballot(&mut self, rows: &BallotRows) -> (u16, Vote) {
        let window = Window::of_votes(View(self.view()));
        let view = match self.random.below(6) {
            0 | 1 => self.replica.counters.high_vote.view.0,
            2 => self.replica.counters.lock.view.0,
            3 => self.view(),
            _ => self.random.between(window.low, window.high),
        };
        let view = View(view.clamp(window.low, window.high));
        let row = rows.row(view);
        let missing = self.settings().everyone() & !row.given & !(1 << self.replica.own());
        let sender = match members(missing).count() {
            0 => self.other_replica(),
            count => members(missing).nth(self.random.index(count)).expect("as many as counted") as u16,
        };
        let name = self.favoured(rows, view);
        (sender, Vote { view, name })
    }

    /// The own name in a row, another's, or any.
    fn favoured(&mut self, rows: &BallotRows, view: View) -> Name {
        let row = rows.row(view);
        let given = row.given & self.settings().everyone();
        let high_vote = self.replica.counters.high_vote;
        if self.random.chance(8) {
            return self.vote_name();
        }
        if let Some(own) = row.get(self.replica.own()) {
            return *own;
        }
        if high_vote.view == view {
            return high_vote.name;
        }
        match members(given).next() {
            Some(first) => row.names[first],
            None => self.vote_name(),
        }
    }

    pub fn vote(&mut self) -> Vec<u8> {
        let (sender, vote) = self.ballot(&self.replica.memory.votes);
        record(|out| wire::write_vote(out, sender, vote))
    }

    pub fn commit(&mut self) -> Vec<u8> {
        let (sender, vote) = self.ballot(&self.replica.memory.commits);
        record(|out| wire::write_commit(out, sender, vote))
    }

    /// A name for a certificate of a view: that of the votes, or of a held block.
    fn certified_name(&mut self, view: View) -> Name {
        let high_vote = self.replica.counters.high_vote;
        if high_vote.view == view && self.random.chance(70) {
            return high_vote.name;
        }
        match self.random.below(20) {
            0 => self.fresh_name(),
            _ => self.held_block().name,
        }
    }

    fn block_certificate_of(&mut self, view: View) -> Certificate {
        let name = self.certified_name(view);
        let signers = self.signers(self.replica.protocol().quorums.block);
        Certificate::block(view, name, signers)
    }

    /// Of the lock's view to a few above the current one.
    pub fn block_certificate(&mut self) -> Vec<u8> {
        let lock = self.replica.counters.lock.view.0;
        let ahead = self.random.weighted(&[(6, 0), (2, 1), (1, 5), (1, 9)]);
        let view = match self.random.below(5) {
            0 => self.random.between(lock.min(self.view()), self.view()),
            _ => self.view() + ahead,
        };
        self.block_certificate_in(view.clamp(1, View::MAX.0 - 1))
    }

    pub fn block_certificate_in(&mut self, view: u64) -> Vec<u8> {
        let mut certificate = self.block_certificate_of(View(view));
        if view == self.replica.counters.lock.view.0 {
            certificate.name = smaller(self.replica.counters.lock.name);
        }
        let sender = self.any_replica();
        record(|out| wire::write_block_certificate(out, sender, &certificate))
    }

    /// A certificate that a good timeout of this view may carry.
    fn carried(&mut self, view: u64) -> Certificate {
        let at = match self.random.below(3) {
            0 => view,
            1 => view.saturating_sub(1).max(1),
            _ => self.random.between(view.saturating_sub(6).max(1), view),
        };
        match self.random.below(5) {
            0 | 1 => Certificate::GENESIS,
            2 => self.block_certificate_of(View(at)),
            3 => {
                let name = self.certified_name(View(at));
                let signers = self.signers(self.replica.protocol().quorums.weak);
                Certificate::weak(View(at), name, signers)
            }
            _ => self.replica.highest_certificate(),
        }
    }

    /// A high vote that a good timeout of this view may give; most give the same.
    fn high_vote(&mut self, view: u64) -> Vote {
        let own = self.replica.counters.high_vote;
        match self.random.below(6) {
            0 | 1 => Vote::NONE,
            2 | 3 if own.view.0 <= view => own,
            4 => Vote { view: View(view), name: self.vote_name() },
            _ => Vote { view: View(self.random.between(1, view)), name: self.vote_name() },
        }
    }

    pub fn timeout_of(&mut self, sender: u16, view: u64) -> Timeout {
        let certificate = self.carried(view);
        let certificate = if certificate.view.0 <= view { certificate } else { Certificate::GENESIS };
        Timeout { sender, view: View(view), high_vote: self.high_vote(view), certificate }
    }

    /// A timeout of a replica that gave none in its view.
    pub fn timeout(&mut self) -> Vec<u8> {
        let window = Window::of_timeouts(View(self.view()));
        let high = window.high.max(window.low);
        let view = if self.random.chance(60) { window.low } else { self.random.between(window.low, high) };
        let given = self.replica.memory.timeouts.row(View(view)).given;
        let missing = self.settings().everyone() & !given & !(1 << self.replica.own());
        let sender = match members(missing).count() {
            0 => self.other_replica(),
            count => members(missing).nth(self.random.index(count)).expect("as many as counted") as u16,
        };
        let timeout = self.timeout_of(sender, view);
        record(|out| wire::write_timeout(out, &timeout))
    }

    /// A timeout certificate of a view: with certificates and high votes of every sort, or plain ones for one block.
    pub fn timeout_certificate_in(&mut self, sender: u16, view: u64) -> Vec<u8> {
        let senders = self.signers(self.replica.protocol().quorums.timeout);
        let timeouts = match self.random.below(3) {
            0 => members(senders).map(|i| self.timeout_of(i as u16, view)).collect(),
            _ => self.timeouts_for_one_block(senders, view),
        };
        record(|out| wire::write_timeout_certificate(out, sender, View(view), &timeouts))
    }

    /// Timeouts whose safe block is held: one carried certificate, or high votes for it.
    fn timeouts_for_one_block(&mut self, senders: u64, view: u64) -> Vec<Timeout> {
        let block = self.held_block();
        let plain = |sender: usize| Timeout {
            sender: sender as u16,
            view: View(view),
            high_vote: Vote::NONE,
            certificate: Certificate::GENESIS,
        };
        let mut timeouts: Vec<Timeout> = members(senders).map(plain).collect();
        let at = View(self.random.between(view.saturating_sub(3).max(1), view));
        let carrier = self.random.index(timeouts.len());
        let weak_quorum = self.replica.protocol().quorums.weak;
        match self.random.below(3) {
            0 => timeouts[carrier].certificate = Certificate { name: block.name, ..self.block_certificate_of(at) },
            1 => {
                let signers = self.signers(weak_quorum);
                timeouts[carrier].certificate = Certificate::weak(at, block.name, signers);
            }
            _ if block.name == GENESIS => {}
            _ => {
                let backers = self.random.between(weak_quorum.into(), timeouts.len().max(weak_quorum as usize) as u64);
                for timeout in timeouts.iter_mut().take(backers as usize) {
                    timeout.high_vote = Vote { view: at, name: block.name };
                }
            }
        }
        timeouts
    }

    pub fn timeout_certificate(&mut self) -> Vec<u8> {
        let ahead = self.random.weighted(&[(6, 0), (2, 1), (1, 4), (1, 9)]);
        let view = (self.view() + ahead).min(View::MAX.0 - 1);
        let sender = self.any_replica();
        self.timeout_certificate_in(sender, view)
    }

    /// The current view or the next ones that another replica leads, if there are any.
    fn proposal_view(&mut self) -> u64 {
        let busy = self.replica.counters.high_vote.view.0 == self.view();
        let ahead = if busy || self.random.chance(30) { self.random.weighted(&[(5, 1), (1, 2), (1, 7)]) } else { 0 };
        let view = self.view() + ahead;
        next_not_led(self.replica, view).unwrap_or(view).min(View::MAX.0 - 1)
    }

    pub fn proposal(&mut self) -> Vec<u8> {
        let view = self.proposal_view();
        self.proposal_in(view)
    }

    /// The leader of a view; any replica where garbage has nobody lead it.
    fn leader_of(&mut self, view: u64) -> u16 {
        let leader = self.replica.leader(View(view));
        if u32::from(leader) < self.settings().n() {
            leader
        } else {
            self.any_replica()
        }
    }

    /// A proposal of this view's leader on a held safe block where there is one.
    pub fn proposal_in(&mut self, view: u64) -> Vec<u8> {
        let sender = self.leader_of(view);
        let progress = self.progress(sender, view - 1);
        let safe = self.safe_name(&progress);
        let parent = self.replica.held(&safe);
        let block = self.child(safe, parent.map_or(Height(0), |parent| parent.height));
        record(|out| wire::write_proposal(out, sender, View(view), &block, &progress))
    }

    /// A good certificate of this view with this sender.
    fn progress(&mut self, sender: u16, view: u64) -> Vec<u8> {
        if view == 0 {
            return record(|out| wire::write_block_certificate(out, sender, &Certificate::GENESIS));
        }
        if self.random.chance(40) {
            return self.timeout_certificate_in(sender, view);
        }
        let certificate = self.block_certificate_of(View(view));
        record(|out| wire::write_block_certificate(out, sender, &certificate))
    }

    /// The safe block of a record of kind 3 or 6.
    pub fn safe_name(&self, progress: &[u8]) -> Name {
        match wire::read_progress(progress) {
            wire::Progress::Block(certificate) => certificate.name,
            wire::Progress::Timeouts(certificate) => {
                self.replica.protocol().safe_certificate(certificate.timeouts).name
            }
        }
    }

    /// A new block on a parent, at times one that is held already.
    pub fn child(&mut self, parent: Name, height: Height) -> Block {
        let held: Vec<Block> =
            self.replica.memory.store.blocks().iter().filter(|block| block.parent == parent).copied().collect();
        if !held.is_empty() && self.random.chance(15) {
            return self.random.pick(&held);
        }
        Block { name: self.fresh_name(), parent, height: Height(height.0.wrapping_add(1)) }
    }

    pub fn block(&mut self) -> Vec<u8> {
        let parent = self.held_block();
        let block =
            Block { name: self.fresh_name(), parent: parent.name, height: Height(parent.height.0.wrapping_add(1)) };
        let sender = self.any_replica();
        record(|out| wire::write_block(out, sender, &block))
    }

    /// The longest chain goes on.
    pub fn chain_block(&mut self) -> Vec<u8> {
        let tip = self.replica.counters.tip;
        let highest = self.replica.memory.store.blocks().iter().copied().max_by_key(|block| block.height);
        let parent = highest.unwrap_or(tip);
        let block =
            Block { name: self.fresh_name(), parent: parent.name, height: Height(parent.height.0.wrapping_add(1)) };
        let sender = self.any_replica();
        record(|out| wire::write_block(out, sender, &block))
    }

    /// Votes or commits of one view for the highest held block, so that a long walk is released.
    pub fn deciding(&mut self, commits: bool) -> Vec<u8> {
        let rows = if commits { &self.replica.memory.commits } else { &self.replica.memory.votes };
        let (sender, mut vote) = self.ballot(rows);
        let highest = self.replica.memory.store.blocks().iter().copied().max_by_key(|block| block.height);
        if let Some(block) = highest {
            vote.name = block.name;
        }
        record(|out| match commits {
            true => wire::write_commit(out, sender, vote),
            false => wire::write_vote(out, sender, vote),
        })
    }
}

/// A name just below, the same if it is zero.
fn smaller(mut name: Name) -> Name {
    for byte in name.iter_mut().rev() {
        if *byte > 0 {
            *byte -= 1;
            break;
        }
    }
    name
}

pub fn record(write: impl FnOnce(&mut Vec<u8>)) -> Vec<u8> {
    let mut bytes = Vec::new();
    write(&mut bytes);
    bytes
}

/// A timeout certificate of any count, with its sender and view: its lengths are right, its senders ascend, and all but the
/// first n of them are outside of the cluster.
pub fn of_any_count(n: u64, random: &mut Random) -> (u16, View, Vec<u8>) {
    let most = random.pick(&[2, 33, 70, 600]);
    let count = random.below(most) as u16;
    let view = random.pick(&[View(1), View(2), View(0), View::MAX]);
    let sender = random.below(n) as u16;
    let timeout = |sender| Timeout { sender, view, high_vote: Vote::NONE, certificate: Certificate::GENESIS };
    let timeouts: Vec<Timeout> = (0..count).map(timeout).collect();
    (sender, view, record(|out| wire::write_timeout_certificate(out, sender, view, &timeouts)))
}
