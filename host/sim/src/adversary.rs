//! Byzantine replicas. One mind leads them all: it sees everything that honest replicas made and hands in whatever
//! the premises allow. The cluster keeps out what they don't.

use std::rc::Rc;

use oracle::wire::{self, Timeouts};
use oracle::{members, Block, Certificate, Height, Leaders, Name, Protocol, Timeout, View, Vote};

use crate::ledger::{makers, Ledger};
use crate::naming::Naming;
use crate::random::Random;

/// A record and the honest replicas that get it.
pub struct Lie {
    pub record: Rc<[u8]>,
    pub to: u64,
    /// A proposal of a view in which it has made another one.
    pub equivocates: bool,
}

/// Where names are made from contents, of a thousand new blocks so many get the name of another one.
const TAKEN: u32 = 50;

pub struct Adversary {
    protocol: Protocol,
    leaders: Leaders,
    liars: u64,
    proposals: Vec<Planted>,
    naming: Naming,
}

/// A proposal that it made.
struct Planted {
    view: u64,
    block: Block,
    record: Rc<[u8]>,
}

/// How many of the latest views a lie may look back.
const BACK: u64 = 4;

impl Adversary {
    pub fn new(protocol: Protocol, leaders: Leaders, liars: u64, naming: Naming) -> Adversary {
        Adversary { protocol, leaders, liars, proposals: Vec::new(), naming }
    }

    pub fn naming(&mut self) -> &mut Naming {
        &mut self.naming
    }

    pub fn liars(&self) -> u64 {
        self.liars
    }

    /// A lie about the views from `low` to `high`, where the honest replicas are. None if it finds nothing to say.
    pub fn act(&mut self, ledger: &Ledger, low: u64, high: u64, random: &mut Random) -> Option<Lie> {
        let view = random.between(low, high);
        let liar = self.liar(random)?;
        match random.below(16) {
            0..=3 => self.lead(ledger, low, high + 1, random),
            4..=6 => self.vote(ledger, liar, view, random),
            7..=8 => self.commit(ledger, liar, view, random),
            9..=12 => Some(self.timeout(ledger, liar, random.between(low, high + 3), random)),
            13 => self.block_certificate(ledger, liar, view, random),
            14 => self.timeout_certificate(ledger, liar, view, random),
            _ => self.stray_block(ledger, liar, view, random),
        }
    }

    fn liar(&self, random: &mut Random) -> Option<u16> {
        let liars: Vec<_> = members(self.liars).collect();
        random.pick(&liars).map(|&liar| liar as u16)
    }

    /// All honest replicas, one, or some.
    fn targets(&self, ledger: &Ledger, random: &mut Random) -> u64 {
        match random.below(4) {
            0 => ledger.honest(),
            1 => random.part_of(ledger.honest(), 1),
            _ => random.part(ledger.honest()),
        }
    }

    fn lie(&self, ledger: &Ledger, record: Vec<u8>, random: &mut Random) -> Lie {
        Lie { record: Rc::from(record), to: self.targets(ledger, random), equivocates: false }
    }

    fn planted(&self, view: u64) -> impl Iterator<Item = &Planted> {
        self.proposals.iter().filter(move |planted| planted.view == view)
    }

    /// The names that it proposed in a view.
    pub fn names(&self, view: u64) -> impl Iterator<Item = Name> + '_ {
        self.planted(view).map(|planted| planted.block.name)
    }

    /// A block that it proposed; hosts that look for it get it from the liars.
    pub fn block(&self, name: &Name) -> Option<Block> {
        self.proposals.iter().map(|planted| planted.block).find(|block| block.name == *name)
    }

    // ------------------------------------------------------------ ballots

    /// A name that stands in a view: one that an honest replica voted for, or one of its own proposals.
    fn name_in(&self, ledger: &Ledger, view: u64, random: &mut Random) -> Option<Name> {
        let voted = ledger.made(view).votes.iter().map(|backing| backing.name);
        let names: Vec<_> = voted.chain(self.names(view)).collect();
        random.pick(&names).copied()
    }

    fn vote(&self, ledger: &Ledger, liar: u16, view: u64, random: &mut Random) -> Option<Lie> {
        let name = self.name_in(ledger, view, random)?;
        let mut record = Vec::new();
        wire::write_vote(&mut record, liar, Vote { view: View(view), name });
        Some(self.lie(ledger, record, random))
    }

    fn commit(&self, ledger: &Ledger, liar: u16, view: u64, random: &mut Random) -> Option<Lie> {
        let view = random.between(view.saturating_sub(1).max(1), view);
        let name = self.name_in(ledger, view, random)?;
        let mut record = Vec::new();
        wire::write_commit(&mut record, liar, Vote { view: View(view), name });
        Some(self.lie(ledger, record, random))
    }

    // ------------------------------------------------------------ certificates

    /// All who can sign for a name: the honest replicas that voted for it, and the liars.
    fn signers(&self, ledger: &Ledger, view: u64, name: &Name) -> u64 {
        makers(&ledger.made(view).votes, name) | self.liars
    }

    /// A good certificate of a view not above `view`, honestly signed as far as honest replicas sign.
    fn certificate(&self, ledger: &Ledger, view: u64, random: &mut Random) -> Certificate {
        let at = random.between(view.saturating_sub(BACK), view);
        self.certificate_in(ledger, at, random).unwrap_or(Certificate::GENESIS)
    }

    fn certificate_in(&self, ledger: &Ledger, view: u64, random: &mut Random) -> Option<Certificate> {
        let name = self.name_in(ledger, view, random)?;
        let signers = self.signers(ledger, view, &name);
        let quorums = self.protocol.quorums;
        let (view, count) = (View(view), signers.count_ones());
        if count >= quorums.block && random.chance(600) {
            Some(Certificate::block(view, name, random.part_of(signers, quorums.block)))
        } else if count >= quorums.weak {
            Some(Certificate::weak(view, name, random.part_of(signers, quorums.weak)))
        } else {
            None
        }
    }

    fn block_certificate(&self, ledger: &Ledger, liar: u16, view: u64, random: &mut Random) -> Option<Lie> {
        let certificate = self.best_block_certificate(ledger, view)?;
        let mut record = Vec::new();
        wire::write_block_certificate(&mut record, liar, &certificate);
        Some(self.lie(ledger, record, random))
    }

    /// The block certificate of a view, if the votes for it are made.
    pub fn certificate_of(&self, ledger: &Ledger, view: u64) -> Option<Vec<u8>> {
        let mut record = Vec::new();
        wire::write_block_certificate(&mut record, 0, &self.best_block_certificate(ledger, view)?);
        Some(record)
    }

    fn best_block_certificate(&self, ledger: &Ledger, view: u64) -> Option<Certificate> {
        let votes = &ledger.made(view).votes;
        let enough = |name: &Name| self.signers(ledger, view, name).count_ones() >= self.protocol.quorums.block;
        let name = votes.iter().map(|backing| backing.name).find(enough)?;
        Some(Certificate::block(View(view), name, self.signers(ledger, view, &name)))
    }

    // ------------------------------------------------------------ timeouts

    /// A timeout with any high vote and any good certificate.
    fn forged_timeout(&self, ledger: &Ledger, liar: u16, view: u64, random: &mut Random) -> Timeout {
        let mut certificate = Certificate::GENESIS;
        if random.chance(500) {
            certificate = self.certificate(ledger, view, random);
        }
        Timeout { sender: liar, view: View(view), high_vote: self.high_vote(ledger, view, random), certificate }
    }

    fn high_vote(&self, ledger: &Ledger, view: u64, random: &mut Random) -> Vote {
        let at = if random.chance(500) { view } else { random.between(view.saturating_sub(BACK), view) };
        match self.name_in(ledger, at, random) {
            Some(name) if at > 0 && random.chance(750) => Vote { view: View(at), name },
            _ => Vote::NONE,
        }
    }

    fn timeout(&self, ledger: &Ledger, liar: u16, view: u64, random: &mut Random) -> Lie {
        let record = self.timeout_of(ledger, liar, view, random);
        self.lie(ledger, record, random)
    }

    pub fn timeout_of(&self, ledger: &Ledger, liar: u16, view: u64, random: &mut Random) -> Vec<u8> {
        wire::raw_timeout(&self.forged_timeout(ledger, liar, view, random)).to_vec()
    }

    /// A timeout certificate of honest and forged timeouts, if there are enough of them.
    fn timeouts(&self, ledger: &Ledger, liar: u16, view: u64, random: &mut Random) -> Option<Vec<u8>> {
        let quorum = self.protocol.quorums.timeout;
        let honest = &ledger.made(view).timeouts;
        let senders = honest.iter().fold(self.liars, |set, raw| set | 1 << wire::sender_of(raw));
        if senders.count_ones() < quorum {
            return None;
        }
        let more = if random.chance(700) { 0 } else { random.below(4) as u32 };
        let chosen: Vec<_> = members(random.part_of(senders, quorum + more))
            .map(|sender| {
                let made = honest.iter().find(|raw| usize::from(wire::sender_of(raw)) == sender);
                made.map_or_else(
                    || self.forged_timeout(ledger, sender as u16, view, random),
                    |raw| wire::read_timeout(raw),
                )
            })
            .collect();
        let mut record = Vec::new();
        wire::write_timeout_certificate(&mut record, liar, View(view), &chosen);
        Some(record)
    }

    /// Of some timeout certificates the one whose safe certificate ranks lowest: it hides the most.
    pub fn timeouts_of(&self, ledger: &Ledger, liar: u16, view: u64, random: &mut Random) -> Option<Vec<u8>> {
        let safe = |record: &[u8]| self.protocol.safe_certificate(Timeouts::of(record));
        let mut best = self.timeouts(ledger, liar, view, random)?;
        for _ in 0..random.below(6) {
            let other = self.timeouts(ledger, liar, view, random)?;
            if self.protocol.outranks(&safe(&best), &safe(&other)) {
                best = other;
            }
        }
        Some(best)
    }

    fn timeout_certificate(&self, ledger: &Ledger, liar: u16, view: u64, random: &mut Random) -> Option<Lie> {
        let record = self.timeouts_of(ledger, liar, view, random)?;
        Some(self.lie(ledger, record, random))
    }

    // ------------------------------------------------------------ blocks

    /// As leader of a view that it leads: a new proposal, or an old one to others.
    fn lead(&mut self, ledger: &Ledger, low: u64, high: u64, random: &mut Random) -> Option<Lie> {
        let is_led = |view: &u64| self.liars >> self.leaders.leader(View(*view)) & 1 == 1;
        let led: Vec<_> = (low..=high).filter(is_led).collect();
        let view = *random.pick(&led)?;
        let own: Vec<_> = self.planted(view).map(|planted| planted.record.clone()).collect();
        if !own.is_empty() && random.chance(500) {
            let record = random.pick(&own)?.clone();
            return Some(Lie { record, to: self.targets(ledger, random), equivocates: false });
        }
        let equivocates = !own.is_empty();
        let record = self.propose(ledger, view, random)?;
        Some(Lie { record, to: self.targets(ledger, random), equivocates })
    }

    /// A new proposal of a view that it leads.
    pub fn propose(&mut self, ledger: &Ledger, view: u64, random: &mut Random) -> Option<Rc<[u8]>> {
        let leader = self.leaders.leader(View(view));
        let (progress, safe) = self.progress(ledger, leader, view - 1, random)?;
        let block = self.fresh_block(ledger, view, safe.name, random)?;
        let mut record = Vec::new();
        wire::write_proposal(&mut record, leader, View(view), &block, &progress);
        let record: Rc<[u8]> = Rc::from(record);
        self.proposals.push(Planted { view, block, record: record.clone() });
        Some(record)
    }

    /// A new block on the safe one; now and then its parent or height is wrong.
    fn fresh_block(&mut self, ledger: &Ledger, view: u64, safe: Name, random: &mut Random) -> Option<Block> {
        let other = self.name_in(ledger, view - 1, random).filter(|_| random.chance(30));
        let parent = other.unwrap_or(safe);
        let known = ledger.block(&parent).copied().or_else(|| self.block(&parent))?;
        let height = Height(known.height.0 + 1 + u64::from(random.chance(30)));
        let taken = self.taken_name(ledger, view - 1, random);
        let name = taken.unwrap_or_else(|| self.fresh_name(parent, height, random));
        Some(Block { name, parent, height })
    }

    /// Another block's name. Where names are invented the premises keep that out, and it isn't tried.
    fn taken_name(&self, ledger: &Ledger, view: u64, random: &mut Random) -> Option<Name> {
        if !self.naming.is_by_contents() || !random.chance(TAKEN) {
            return None;
        }
        self.name_in(ledger, view, random)
    }

    /// A progress certificate of a view and its safe certificate.
    fn progress(&self, ledger: &Ledger, leader: u16, view: u64, random: &mut Random) -> Option<(Vec<u8>, Certificate)> {
        let block = if view == 0 { Some(Certificate::GENESIS) } else { self.best_block_certificate(ledger, view) };
        let timeouts = self.timeouts_of(ledger, leader, view, random);
        match (block, timeouts) {
            (_, Some(record)) if view > 0 && (block.is_none() || random.chance(700)) => {
                let safe = self.protocol.safe_certificate(Timeouts::of(&record));
                Some((record, safe))
            }
            (Some(certificate), _) => {
                let mut record = Vec::new();
                wire::write_block_certificate(&mut record, leader, &certificate);
                Some((record, certificate))
            }
            _ => None,
        }
    }

    /// Half of them small, since the smaller name ranks above.
    fn fresh_name(&mut self, parent: Name, height: Height, random: &mut Random) -> Name {
        let name = self.naming.name(parent, height, random);
        if random.chance(500) {
            self.naming.smaller(name, parent, height, random)
        } else {
            name
        }
    }

    /// A block of a view by itself, or a new one on it.
    fn stray_block(&mut self, ledger: &Ledger, liar: u16, view: u64, random: &mut Random) -> Option<Lie> {
        let name = self.name_in(ledger, view, random)?;
        let mut block = *ledger.block(&name)?;
        if random.chance(500) {
            let height = Height(block.height.0 + 1);
            let taken = self.taken_name(ledger, view, random);
            let fresh = taken.unwrap_or_else(|| self.fresh_name(name, height, random));
            block = Block { name: fresh, parent: name, height };
        }
        let mut record = Vec::new();
        wire::write_block(&mut record, liar, &block);
        Some(self.lie(ledger, record, random))
    }
}
