//! Random runs in rounds: in each view it is drawn by lot who hears the proposal, whose votes, certificates, commits
//! and timeouts. Nothing is on its way between: what the lot doesn't give is late or lost. Such runs come to the states
//! on which safety hangs (one replica released, the others know little) much more often than a busy network does.

use std::rc::Rc;

use oracle::wire::{self, kind, Record};
use oracle::{members, Leaders, Protocol, View, Vote};

use crate::adversary::Adversary;
use crate::chain::Violation;
use crate::cluster::{Cluster, Outcome};
use crate::core::Core;
use crate::coverage::Row;
use crate::leaders;
use crate::ledger::Backing;
use crate::naming::{self, Naming, Own};
use crate::random::Random;

pub struct Rounds<C: Core> {
    cluster: Cluster<C>,
    adversary: Adversary,
    random: Random,
    /// Whether hosts break their duty: they resume from older states than the last finished call left.
    old_states: bool,
    saved: Vec<(usize, C)>,
}

impl<C: Core> Rounds<C> {
    /// Rounds with f Byzantine replicas, and this leader list or one that is drawn.
    pub fn new(
        options: C::Options,
        protocol: Protocol,
        leaders: Option<Leaders>,
        naming: Naming,
        seed: u64,
        old_states: bool,
    ) -> Rounds<C> {
        let mut random = Random::new(seed);
        let settings = protocol.settings;
        let mut liars = random.part_of(settings.everyone(), settings.f());
        if random.chance(600) {
            liars = random.part_of(settings.everyone() & 0xf, settings.f()); // by 0 to n−1 they lead soon
        }
        let leaders = leaders.unwrap_or_else(|| leaders::draw(settings, liars, &mut random));
        Rounds {
            cluster: Cluster::open(options, protocol, leaders, liars).named(&naming),
            adversary: Adversary::new(protocol, leaders, liars, naming),
            random,
            old_states,
            saved: Vec::new(),
        }
    }

    pub fn cluster(&self) -> &Cluster<C> {
        &self.cluster
    }

    /// Plays rounds up to about this many calls, or to the first violation.
    pub fn play(&mut self, calls: u64) -> Option<Violation> {
        while self.cluster.calls() < calls && self.cluster.violation().is_none() {
            self.round(self.highest_view());
        }
        self.cluster.violation()
    }

    fn highest_view(&self) -> u64 {
        members(self.honest()).map(|replica| self.cluster.view(replica)).max().unwrap_or(1)
    }

    fn honest(&self) -> u64 {
        self.cluster.ledger().honest()
    }

    fn round(&mut self, view: u64) {
        if self.old_states {
            self.save_all();
        }
        if self.random.chance(250) {
            self.timers(view);
        }
        self.proposals(view);
        for _ in 0..1 + self.random.below(3) {
            match self.random.below(6) {
                0 => self.timers(view),
                1 => self.certificates(view),
                2 => self.commits(view),
                3 => self.earlier(view),
                4 if self.old_states => self.forget(view),
                _ => self.votes(view),
            }
        }
        self.commits(view);
        if self.random.chance(700) {
            self.timers(view);
            self.timeouts(view);
        }
        if self.highest_view() == view {
            self.give_up(view);
        }
    }

    fn save_all(&mut self) {
        self.saved = members(self.honest()).map(|replica| (replica, self.cluster.save(replica))).collect();
    }

    /// Some hosts put back the state of the round's beginning, unless the replica would plainly release again; then
    /// the leader is heard again.
    fn forget(&mut self, view: u64) {
        let forgetful = self.lot();
        for (replica, saved) in std::mem::take(&mut self.saved) {
            if forgetful >> replica & 1 == 1 && self.cluster.replica(replica).height() == saved.height() {
                self.cluster.restore(replica, saved);
            }
        }
        self.proposals(view);
    }

    /// All, none, one, all but one, or any honest replicas.
    fn lot(&mut self) -> u64 {
        let honest = self.honest();
        match self.random.below(6) {
            0 => honest,
            1 => 0,
            2 => self.random.part_of(honest, 1),
            3 => self.random.part_of(honest, honest.count_ones() - 1),
            _ => self.random.part(honest),
        }
    }

    /// A draw that is more often everyone.
    fn generous_lot(&mut self) -> u64 {
        if self.random.chance(500) {
            self.honest()
        } else {
            self.lot()
        }
    }

    // ------------------------------------------------------------ calls

    /// Hands a record in, if it isn't one's own; a host that lacks the parent fetches it.
    fn hand_in(&mut self, to: usize, record: &[u8]) {
        let made_by_one = matches!(wire::kind_of(record), kind::TIMEOUT | kind::PROPOSAL);
        if made_by_one && usize::from(wire::sender_of(record)) == to {
            return;
        }
        if self.record(to, record) == Outcome::Refused(12) && self.random.chance(900) {
            if let Ok(Record::Proposal(proposal)) = wire::read(record, self.cluster.n() as u32) {
                self.fetch(to, &proposal.block.parent);
                self.record(to, record);
            }
        }
    }

    fn record(&mut self, to: usize, record: &[u8]) -> Outcome {
        naming::hand_in(&mut self.cluster, &mut self.adversary, &mut self.random, to, record)
    }

    fn fetch(&mut self, replica: usize, name: &[u8; 32]) {
        let ledger = self.cluster.ledger();
        let planted = self.adversary.block(name).filter(|_| ledger.block(name).is_none());
        let known = planted.map_or(*name, |block| block.parent);
        let height = self.cluster.replica(replica).height();
        for block in ledger.path(&known, height).into_iter().chain(planted) {
            let mut record = Vec::new();
            wire::write_block(&mut record, 0, &block);
            self.record(replica, &record);
        }
    }

    fn hand_to_all(&mut self, to: u64, record: &[u8]) {
        members(to).for_each(|replica| self.hand_in(replica, record));
    }

    fn timers(&mut self, view: u64) {
        let replicas = self.lot();
        self.time_out(replicas, view);
    }

    /// The clocks of those that are in this view and haven't sent a timeout for it run out.
    fn time_out(&mut self, replicas: u64, view: u64) {
        for replica in members(replicas) {
            if self.cluster.view(replica) == view && self.cluster.replica(replica).timed() < view {
                self.cluster.timer(replica, view);
            }
        }
    }

    // ------------------------------------------------------------ the steps of a view

    fn proposals(&mut self, view: u64) {
        let leader = self.cluster.leader(view);
        if !self.cluster.is_honest(leader) {
            return self.equivocate(view);
        }
        if self.cluster.view(leader) == view && self.cluster.replica(leader).timed() < view {
            let own = Own::draw(&self.cluster, &mut self.random);
            if own.propose(&mut self.cluster, leader, &mut self.random) == Outcome::Refused(12) {
                self.fetch_safe_block(leader, view);
                own.propose(&mut self.cluster, leader, &mut self.random);
            }
        }
        for record in self.cluster.ledger().made(view).proposals.clone() {
            let to = self.generous_lot();
            self.hand_to_all(to, &record);
        }
    }

    /// A leader that lacks its safe block fetches all that was voted for or shown lately.
    fn fetch_safe_block(&mut self, leader: usize, view: u64) {
        for earlier in view.saturating_sub(6)..view {
            let voted = self.cluster.ledger().made(earlier).votes.iter().map(|backing| backing.name);
            let names: Vec<_> = voted.chain(self.adversary.names(earlier)).collect();
            names.iter().for_each(|name| self.fetch(leader, name));
        }
    }

    /// A Byzantine leader: some proposals, each to others, or each replica another one.
    fn equivocate(&mut self, view: u64) {
        let each = self.random.chance(200);
        let mut left = self.honest();
        let most = if each { left.count_ones() as usize } else { 1 + self.random.below(3) };
        for turn in 0..most {
            let Some(record) = self.adversary.propose(self.cluster.ledger(), view, &mut self.random) else { return };
            let to = match turn + 1 == most {
                _ if each => self.random.part_of(left, 1),
                true => left,
                false => left & self.generous_lot(),
            };
            left &= !to;
            self.cluster.coverage.add(Row::Equivocations, u64::from(turn > 0));
            self.cluster.coverage.add(Row::Lies, u64::from(to.count_ones()));
            self.hand_to_all(to, &record);
        }
    }

    fn votes(&mut self, view: u64) {
        for replica in members(self.lot()) {
            let voted = self.cluster.ledger().made(view).votes.clone();
            self.ballots(replica, view, &voted, wire::write_vote);
        }
    }

    fn commits(&mut self, view: u64) {
        for replica in members(self.lot()) {
            let committed = self.cluster.ledger().made(view).commits.clone();
            self.ballots(replica, view, &committed, wire::write_commit);
        }
    }

    /// Honest ballots by lot, then those that the liars give to please.
    fn ballots(&mut self, to: usize, view: u64, made: &[Backing], write: fn(&mut Vec<u8>, u16, Vote)) {
        let heard = self.generous_lot() & !(1 << to);
        let liked = self.liked(to, view);
        for backing in made {
            let liars = if liked == Some(backing.name) { self.adversary.liars() } else { 0 };
            self.cluster.coverage.add(Row::Lies, u64::from(liars.count_ones()));
            for sender in members(backing.makers & heard | liars) {
                let mut record = Vec::new();
                write(&mut record, sender as u16, Vote { view: View(view), name: backing.name });
                self.hand_in(to, &record);
            }
        }
    }

    /// The name that a replica voted for, or sometimes any other of the view.
    fn liked(&mut self, replica: usize, view: u64) -> Option<[u8; 32]> {
        let votes = &self.cluster.ledger().made(view).votes;
        let own = votes.iter().find(|backing| backing.makers >> replica & 1 == 1).map(|backing| backing.name);
        if self.random.chance(800) {
            own
        } else {
            self.random.pick(votes).map(|backing| backing.name)
        }
    }

    fn certificates(&mut self, view: u64) {
        let to = self.lot();
        if let Some(record) = self.adversary.certificate_of(self.cluster.ledger(), view) {
            self.hand_to_all(to, &record);
        }
    }

    /// Something of a view before comes late.
    fn earlier(&mut self, view: u64) {
        let before = self.random.between(view.saturating_sub(3), view);
        match self.random.below(3) {
            0 => self.certificates(before),
            1 => self.votes(before),
            _ => self.commits(before),
        }
    }

    fn timeouts(&mut self, view: u64) {
        let next = 1u64 << self.cluster.leader(view + 1);
        let receivers = (self.lot() | next) & self.honest();
        for replica in members(receivers) {
            let heard = self.generous_lot();
            let mut timeouts = self.forged_timeouts(view);
            let made = self.cluster.ledger().made(view).timeouts.iter();
            timeouts.extend(made.filter(|raw| heard >> wire::sender_of(raw) & 1 == 1).cloned());
            self.random.shuffle(&mut timeouts); // a certificate is formed of the first ones that are enough
            timeouts.iter().for_each(|raw| self.hand_in(replica, raw));
        }
        if self.random.chance(300) {
            self.timeout_certificate(view);
        }
    }

    /// Timeouts of some liars.
    fn forged_timeouts(&mut self, view: u64) -> Vec<Rc<[u8]>> {
        let liars = self.random.part(self.adversary.liars());
        self.cluster.coverage.add(Row::Lies, u64::from(liars.count_ones()));
        let forge = |liar| self.adversary.timeout_of(self.cluster.ledger(), liar as u16, view, &mut self.random);
        members(liars).map(forge).map(Rc::from).collect()
    }

    fn timeout_certificate(&mut self, view: u64) {
        let sender = self.cluster.leader(view + 1) as u16;
        let to = self.lot();
        if let Some(record) = self.adversary.timeouts_of(self.cluster.ledger(), sender, view, &mut self.random) {
            self.hand_to_all(to, &record);
        }
    }

    /// Nobody has left the view: all clocks run out and all timeouts arrive.
    fn give_up(&mut self, view: u64) {
        self.time_out(self.honest(), view);
        for replica in members(self.honest()) {
            let made: Vec<Rc<[u8]>> = self.cluster.ledger().made(view).timeouts.clone();
            made.iter().for_each(|raw| self.hand_in(replica, raw));
        }
    }
}
