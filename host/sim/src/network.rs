//! Random runs: a network that loses, doubles, delays and reorders, hosts that stop and resume, clocks that run out at
//! any time, and the adversary. All from one seed.

use std::collections::VecDeque;
use std::rc::Rc;

use oracle::wire::{self, kind, Record};
use oracle::{members, Block, Height, Leaders, Name, Protocol, View, GENESIS};

use crate::adversary::Adversary;
use crate::chain::Violation;
use crate::cluster::{Cluster, Outcome, RefusedOpening};
use crate::core::Core;
use crate::coverage::Row;
use crate::leaders;
use crate::naming::{self, Naming, Own};
use crate::random::Random;

/// A record on its way. A forged one has no honest sender.
struct Message {
    from: Option<usize>,
    record: Rc<[u8]>,
}

/// How the network and the hosts behave for a while; chances in parts of a thousand.
struct Weather {
    calls_left: u32,
    timer: u32,
    loss: u32,
    double: u32,
    disorder: u32,
    lie: u32,
    noise: u32,
    replay: u32,
    stop: u32,
    resume: u32,
    /// Replicas of different groups don't reach each other.
    group: [u8; 32],
}

impl Weather {
    fn new(random: &mut Random) -> Weather {
        let mut of = |choices: &[u32]| *random.pick(choices).expect("choices");
        let mut weather = Weather {
            calls_left: of(&[30, 100, 300, 1000]),
            timer: of(&[1, 1, 3, 10, 40, 100]),
            loss: of(&[0, 0, 10, 100, 300]),
            double: of(&[0, 10, 100]),
            disorder: of(&[0, 50, 500, 1000]),
            lie: of(&[0, 30, 100, 300]),
            noise: of(&[2, 10, 50]),
            replay: of(&[2, 10, 50]),
            stop: of(&[0, 1, 5]),
            resume: of(&[1, 5, 20]),
            group: [0; 32],
        };
        let groups = of(&[1, 1, 1, 2, 3]) as usize;
        for group in &mut weather.group {
            *group = random.below(groups) as u8;
        }
        weather
    }
}

/// Records that were sent, to be handed in again later.
const HISTORY: usize = 512;
/// Longest queue of a replica; what comes above is lost.
const QUEUE: usize = 600;

pub struct Run<C: Core> {
    cluster: Cluster<C>,
    adversary: Adversary,
    random: Random,
    weather: Weather,
    queues: Vec<VecDeque<Message>>,
    history: Vec<Rc<[u8]>>,
    /// The saved state of a replica whose host is stopped.
    stopped: Vec<Option<C>>,
    /// The view that a replica last proposed in.
    proposed: Vec<u64>,
}

impl<C: Core> Run<C> {
    /// A run with some number of Byzantine replicas, at most f, and this leader list or one that is drawn.
    pub fn new(options: C::Options, protocol: Protocol, leaders: Option<Leaders>, naming: Naming, seed: u64) -> Run<C> {
        let mut random = Random::new(seed);
        let settings = protocol.settings;
        let count = if random.chance(800) { settings.f() } else { random.below(settings.f() as usize + 1) as u32 };
        let liars = random.part_of(settings.everyone(), count);
        let leaders = leaders.unwrap_or_else(|| leaders::draw(settings, liars, &mut random));
        let n = settings.n() as usize;
        Run {
            cluster: Cluster::open(options, protocol, leaders, liars).named(&naming),
            adversary: Adversary::new(protocol, leaders, liars, naming),
            weather: Weather::new(&mut random),
            random,
            queues: (0..n).map(|_| VecDeque::new()).collect(),
            history: Vec::new(),
            stopped: (0..n).map(|_| None).collect(),
            proposed: vec![0; n],
        }
    }

    pub fn cluster(&self) -> &Cluster<C> {
        &self.cluster
    }

    /// Plays on to this many calls, or to the first violation.
    pub fn play(&mut self, calls: u64) -> Option<Violation> {
        if self.random.chance(150) {
            self.flood_sometime(calls);
        }
        while self.cluster.calls() < calls && self.cluster.violation().is_none() {
            self.step();
        }
        self.cluster.violation()
    }

    fn step(&mut self) {
        if self.weather.calls_left == 0 {
            self.weather = Weather::new(&mut self.random);
        }
        self.weather.calls_left = self.weather.calls_left.saturating_sub(1);
        let mut roll = self.random.below(1000) as u32;
        let mut comes = |chance: u32| {
            let hit = roll < chance;
            roll = roll.wrapping_sub(chance);
            hit
        };
        let weather = &self.weather;
        if comes(weather.lie) {
            self.lie();
        } else if comes(weather.timer) {
            self.time_out_any();
        } else if comes(weather.noise) {
            self.noise();
        } else if comes(weather.replay) {
            self.replay();
        } else if comes(weather.stop) {
            self.stop();
        } else if comes(weather.resume) {
            self.resume();
        } else if comes(10) {
            self.fetch_any();
        } else {
            self.deliver_any();
        }
    }

    // ------------------------------------------------------------ replicas

    /// A random honest replica whose host is up.
    fn any(&mut self) -> Option<usize> {
        let start = self.random.below(self.cluster.n());
        let order = (start..self.cluster.n()).chain(0..start);
        order.into_iter().find(|&replica| self.is_up(replica))
    }

    fn is_up(&self, replica: usize) -> bool {
        self.cluster.is_honest(replica) && self.stopped[replica].is_none()
    }

    /// The lowest and the highest view of the honest replicas.
    fn views(&self) -> (u64, u64) {
        let views = members(self.cluster.ledger().honest()).map(|replica| self.cluster.view(replica));
        views.fold((u64::MAX, 1), |(low, high), view| (low.min(view), high.max(view)))
    }

    // ------------------------------------------------------------ records on their way

    /// Hands a record in and sends on what comes of it.
    fn hand_in(&mut self, to: usize, record: &[u8]) -> Outcome {
        let outcome = naming::hand_in(&mut self.cluster, &mut self.adversary, &mut self.random, to, record);
        self.after(to, outcome);
        outcome
    }

    fn after(&mut self, replica: usize, outcome: Outcome) {
        if outcome == Outcome::Accepted {
            self.send_all(replica);
            self.propose_in_turn(replica);
        }
    }

    /// 01: "the host takes kind 6 to the leader of the next view .. and the other kinds to every other box."
    fn send_all(&mut self, from: usize) {
        for record in std::mem::take(&mut self.cluster.sent) {
            let others = self.cluster.ledger().honest() & !(1 << from);
            let to = match wire::kind_of(&record) {
                kind::TIMEOUT_CERTIFICATE => others & 1 << self.cluster.leader(wire::u64_at(&record, 8) + 1),
                _ => others,
            };
            self.send(Some(from), &record, to);
        }
    }

    fn send(&mut self, from: Option<usize>, record: &Rc<[u8]>, to: u64) {
        self.remember(record);
        for replica in members(to) {
            if self.random.chance(self.weather.loss) || self.queues[replica].len() > QUEUE {
                self.cluster.coverage.add(Row::Lost, 1);
                continue;
            }
            self.queues[replica].push_back(Message { from, record: record.clone() });
            if self.random.chance(self.weather.double) {
                self.cluster.coverage.add(Row::Doubled, 1);
                self.queues[replica].push_back(Message { from, record: record.clone() });
            }
        }
    }

    fn remember(&mut self, record: &Rc<[u8]>) {
        if self.history.len() < HISTORY {
            self.history.push(record.clone());
        } else {
            let place = self.random.below(HISTORY);
            self.history[place] = record.clone();
        }
    }

    /// Delivers a record to some replica; where nothing is on its way a clock runs out or a leader proposes.
    fn deliver_any(&mut self) {
        for _ in 0..4 {
            let Some(replica) = self.any() else { return self.resume() };
            if let Some(message) = self.next_message(replica) {
                let outcome = self.deliver(replica, &message.record);
                let honest = message.from.is_some();
                assert!(!honest || outcome != Outcome::Barred, "what honest replicas send keeps to the premises");
                return;
            }
        }
        match self.any() {
            Some(replica) if self.is_turn(replica) => self.propose(replica),
            Some(replica) if !self.has_timed_out(replica) => self.time_out(replica),
            Some(_) => self.weather.calls_left = 0,
            None => self.resume(),
        }
    }

    fn deliver(&mut self, replica: usize, record: &[u8]) -> Outcome {
        let outcome = self.hand_in(replica, record);
        if outcome == Outcome::Refused(12) && self.random.chance(700) {
            self.fetch_for(replica, record);
        }
        outcome
    }

    /// The next record for a replica that the groups let through; those that they hold back wait on.
    fn next_message(&mut self, replica: usize) -> Option<Message> {
        for _ in 0..self.queues[replica].len().min(8) {
            let message = self.take_message(replica)?;
            let group = &self.weather.group;
            if message.from.is_none_or(|from| group[from] == group[replica]) {
                return Some(message);
            }
            self.queues[replica].push_back(message);
        }
        None
    }

    fn take_message(&mut self, replica: usize) -> Option<Message> {
        if !self.random.chance(self.weather.disorder) {
            return self.queues[replica].pop_front();
        }
        self.cluster.coverage.add(Row::Reordered, 1);
        let place = self.random.below(self.queues[replica].len().max(1));
        self.queues[replica].swap_remove_back(place)
    }

    /// Something that was sent before, to anyone.
    fn replay(&mut self) {
        if let (Some(record), Some(replica)) = (self.random.pick(&self.history).cloned(), self.any()) {
            self.deliver(replica, &record);
        }
    }

    // ------------------------------------------------------------ blocks

    /// The host fetches what a refused proposal or block builds on, and hands it in again.
    fn fetch_for(&mut self, replica: usize, record: &[u8]) {
        let parent = match wire::read(record, self.cluster.n() as u32) {
            Ok(Record::Proposal(proposal)) => proposal.block.parent,
            Ok(Record::Block { block, .. }) => block.parent,
            _ => return,
        };
        self.fetch(replica, &parent);
        self.hand_in(replica, record);
    }

    /// The host fetches a block that was voted for lately.
    fn fetch_any(&mut self) {
        let Some(replica) = self.any() else { return };
        let view = self.cluster.view(replica);
        let lately = self.random.between(view.saturating_sub(4), view);
        let votes = &self.cluster.ledger().made(lately).votes;
        if let Some(name) = self.random.pick(votes).map(|backing| backing.name) {
            self.fetch(replica, &name);
        }
    }

    fn fetch(&mut self, replica: usize, name: &Name) {
        let height = self.cluster.replica(replica).height();
        for block in self.cluster.ledger().path(name, height) {
            self.hand_block(replica, &block);
        }
    }

    fn hand_block(&mut self, replica: usize, block: &Block) -> Outcome {
        let mut record = Vec::new();
        wire::write_block(&mut record, self.random.below(self.cluster.n()) as u16, block);
        self.hand_in(replica, &record)
    }

    /// Plays some calls and then fills one replica's store with blocks that nobody wants.
    fn flood_sometime(&mut self, calls: u64) {
        let until = self.random.between(0, calls);
        while self.cluster.calls() < until && self.cluster.violation().is_none() {
            self.step();
        }
        let Some(replica) = self.any() else { return };
        let parent = self.cluster.rows().row(replica).last().copied().unwrap_or(GENESIS);
        let height = Height(self.cluster.replica(replica).height() + 1);
        let mut outcome = Outcome::Accepted;
        // Some are refused for their contents, or come twice: no bytes make one name.
        while matches!(outcome, Outcome::Accepted | Outcome::Refused(10 | 16 | 17)) {
            let name = self.adversary.naming().name(parent, height, &mut self.random);
            outcome = self.hand_block(replica, &Block { name, parent, height });
        }
    }

    // ------------------------------------------------------------ clocks and leaders

    fn time_out_any(&mut self) {
        if let Some(replica) = self.any() {
            self.time_out(replica);
        }
    }

    fn time_out(&mut self, replica: usize) {
        let outcome = self.cluster.timer(replica, self.cluster.view(replica));
        self.after(replica, outcome);
    }

    fn has_timed_out(&self, replica: usize) -> bool {
        self.cluster.replica(replica).timed() >= self.cluster.view(replica)
    }

    fn is_turn(&self, replica: usize) -> bool {
        let view = self.cluster.view(replica);
        let leads = self.cluster.leader(view) == replica;
        leads && !self.has_timed_out(replica) && self.proposed[replica] != view
    }

    /// In the cluster of one each proposal ends its view, and the next view's is due at once.
    fn propose_in_turn(&mut self, replica: usize) {
        while self.is_turn(replica) && self.random.chance(900) {
            self.propose(replica);
        }
    }

    fn propose(&mut self, replica: usize) {
        self.proposed[replica] = self.cluster.view(replica);
        let own = Own::draw(&self.cluster, &mut self.random);
        if own.propose(&mut self.cluster, replica, &mut self.random) == Outcome::Accepted {
            self.send_all(replica);
        }
    }

    // ------------------------------------------------------------ hosts

    fn stop(&mut self) {
        let down = self.stopped.iter().flatten().count() as u32;
        if down >= self.cluster.protocol().settings.c() {
            return;
        }
        if let Some(replica) = self.any() {
            self.stopped[replica] = Some(self.cluster.save(replica));
            self.cluster.coverage.add(Row::Stopped, 1);
        }
    }

    /// A stopped host comes back: calls that it didn't finish leave nothing, and some records are lost.
    fn resume(&mut self) {
        let down: Vec<_> = (0..self.cluster.n()).filter(|&replica| self.stopped[replica].is_some()).collect();
        let Some(&replica) = self.random.pick(&down) else { return };
        for _ in 0..self.random.below(3) {
            if let Some(message) = self.queues[replica].pop_front() {
                self.cluster.cut_off(replica, &message.record);
            }
        }
        if self.random.chance(500) {
            self.queues[replica].clear();
        }
        if let Some(saved) = self.stopped[replica].take() {
            self.cluster.restore(replica, saved);
            self.cluster.coverage.add(Row::Resumed, 1);
        }
    }

    // ------------------------------------------------------------ lies and noise

    fn lie(&mut self) {
        let (low, high) = self.views();
        let lie = self.adversary.act(self.cluster.ledger(), low, high, &mut self.random);
        let Some(lie) = lie else { return self.deliver_any() };
        self.cluster.coverage.add(Row::Equivocations, u64::from(lie.equivocates));
        self.cluster.coverage.add(Row::Lies, u64::from(lie.to.count_ones()));
        if self.random.chance(300) {
            return self.send(None, &lie.record, lie.to);
        }
        self.remember(&lie.record);
        for replica in members(lie.to) {
            if self.is_up(replica) {
                self.deliver(replica, &lie.record);
            }
        }
    }

    /// Calls that make no sense: damaged or empty records, timers of other views, proposals out of turn.
    fn noise(&mut self) {
        let Some(replica) = self.any() else { return };
        match self.random.below(12) {
            0 => self.odd_timer(replica),
            1 => self.odd_propose(replica),
            2 => {
                let refused = *self.random.pick(&RefusedOpening::ALL).expect("openings");
                self.cluster.refused_opening(replica, refused);
            }
            _ => {
                let record = self.damaged_record();
                self.hand_in(replica, &record);
            }
        }
    }

    fn odd_timer(&mut self, replica: usize) {
        let view = self.cluster.view(replica);
        let odd = [0, view - 1, view + 1, View::MAX.0, u64::MAX];
        let outcome = self.cluster.timer(replica, odd[self.random.below(odd.len())]);
        self.after(replica, outcome);
    }

    fn odd_propose(&mut self, replica: usize) {
        let view = self.cluster.view(replica);
        let known = self.cluster.ledger().made(view - 1).votes.first().map(|backing| backing.name);
        let leader = self.cluster.leader(view);
        let replica = if self.is_up(leader) && self.random.chance(800) { leader } else { replica };
        let name = match self.random.below(3) {
            0 => GENESIS,
            1 => known.unwrap_or(GENESIS),
            _ => self.random.name(),
        };
        let outcome = naming::propose_oddly(&mut self.cluster, replica, name, &mut self.random);
        self.after(replica, outcome);
    }

    /// A record of before with a few bytes changed, cut or added.
    fn damaged_record(&mut self) -> Vec<u8> {
        let random = &mut self.random;
        let mut record = random.pick(&self.history).map_or(Vec::new(), |record| record.to_vec());
        match random.below(8) {
            0 => record.truncate(random.below(record.len() + 1)),
            1 => record.push(0),
            2 if record.len() > 8 => record[6] = random.number() as u8 % 40, // sender
            3 if record.len() > 16 => {
                let view = wire::u64_at(&record, 8);
                let odd = [0, view.wrapping_sub(5), view + 1, view + 4, View::MAX.0 - 1, View::MAX.0, u64::MAX];
                let at = random.below(odd.len());
                record[8..16].copy_from_slice(&odd[at].to_le_bytes());
            }
            4 if record.len() >= 56 => {
                let end = record.len(); // signers of kind 3, of a timeout's certificate, of a last inner timeout
                record[end - 8..].copy_from_slice(&(1u64 << random.below(5)).to_le_bytes());
            }
            5 if record.len() > 8 => record[4] = random.below(13) as u8, // kind
            _ => {
                for _ in 0..1 + random.below(2) {
                    if !record.is_empty() {
                        let place = random.below(record.len());
                        record[place] ^= 1 << random.below(8);
                    }
                }
            }
        }
        record
    }
}
