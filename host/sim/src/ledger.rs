//! What the honest replicas of a run made, and with it the premises of 01's "A run of the ring".

use std::collections::HashMap;
use std::rc::Rc;

use oracle::wire::{self, kind, Progress, Proposal, Record, TimeoutCertificate};
use oracle::{Block, Certificate, Name, Timeout, Vote, GENESIS};

/// Who made a vote (or a commit) for a name.
#[derive(Clone, Debug)]
pub struct Backing {
    pub name: Name,
    pub makers: u64,
}

/// All that honest replicas made of one view.
#[derive(Clone, Debug, Default)]
pub struct Made {
    pub votes: Vec<Backing>,
    pub commits: Vec<Backing>,
    pub timeouts: Vec<Rc<[u8]>>,
    pub proposals: Vec<Rc<[u8]>>,
}

#[derive(Clone, Debug)]
pub struct Ledger {
    n: u32,
    honest: u64,
    views: Vec<Made>,
    blocks: HashMap<Name, Block>,
    nothing: Made,
}

impl Ledger {
    pub fn new(n: u32, honest: u64) -> Ledger {
        let blocks = HashMap::from([(GENESIS, Block::GENESIS)]);
        Ledger { n, honest, views: Vec::new(), blocks, nothing: Made::default() }
    }

    pub fn is_honest(&self, replica: u16) -> bool {
        u32::from(replica) < self.n && self.honest >> replica & 1 == 1
    }

    pub fn honest(&self) -> u64 {
        self.honest
    }

    /// What was made of a view.
    pub fn made(&self, view: u64) -> &Made {
        usize::try_from(view).ok().and_then(|view| self.views.get(view)).unwrap_or(&self.nothing)
    }

    fn made_mut(&mut self, view: u64) -> &mut Made {
        let view = view as usize; // honest replicas of a simulated run come only so far
        if view >= self.views.len() {
            self.views.resize_with(view + 1, Made::default);
        }
        &mut self.views[view]
    }

    /// A name's parent and height, as far as the run has fixed them.
    pub fn block(&self, name: &Name) -> Option<&Block> {
        self.blocks.get(name)
    }

    /// Blocks from above a height up to and with this name.
    pub fn path(&self, name: &Name, above: u64) -> Vec<Block> {
        let mut path = Vec::new();
        let mut next = self.block(name);
        while let Some(block) = next.filter(|block| block.height.0 > above) {
            path.push(*block);
            next = self.block(&block.parent);
        }
        path.reverse();
        path
    }

    // ------------------------------------------------------------ what happens

    /// An honest replica made this record.
    pub fn make(&mut self, replica: usize, record: &Rc<[u8]>) {
        let view = wire::u64_at(record, 8);
        match wire::kind_of(record) {
            kind::VOTE => back(&mut self.made_mut(view).votes, wire::name_at(record, 16), replica),
            kind::COMMIT => back(&mut self.made_mut(view).commits, wire::name_at(record, 16), replica),
            kind::TIMEOUT => self.made_mut(view).timeouts.push(record.clone()),
            kind::PROPOSAL => {
                self.made_mut(view).proposals.push(record.clone());
                self.accept(record);
            }
            _ => {}
        }
    }

    /// An honest replica accepted this record, its own proposal among them: "A name's parent and height are those given by
    /// an accepted kind 7 or 8".
    pub fn accept(&mut self, record: &[u8]) {
        if let Some(block) = wire::block_of(record) {
            self.blocks.insert(block.name, block);
        }
    }

    // ------------------------------------------------------------ the premises

    /// Whether an accepted record would keep to the premises. What is no record at all is refused, so it is free.
    pub fn permits(&self, bytes: &[u8]) -> bool {
        match wire::read(bytes, self.n) {
            Err(_) => true,
            Ok(Record::Vote { sender, vote }) => self.permits_ballot(sender, vote, |made| &made.votes),
            Ok(Record::Commit { sender, vote }) => self.permits_ballot(sender, vote, |made| &made.commits),
            Ok(Record::BlockCertificate { certificate, .. }) => self.permits_certificate(&certificate),
            Ok(Record::Timeout { timeout, raw }) => self.permits_timeout(&timeout, raw),
            Ok(Record::TimeoutCertificate { certificate, .. }) => self.permits_timeouts(&certificate),
            Ok(Record::Proposal(proposal)) => self.permits_proposal(&proposal, bytes),
            Ok(Record::Block { block, .. }) => self.permits_block(&block),
        }
    }

    /// "if it is kind 1, 2, 5 or 7 with an honest sender, that box made it earlier"
    fn permits_ballot(&self, sender: u16, vote: Vote, kind: impl Fn(&Made) -> &Vec<Backing>) -> bool {
        !self.is_honest(sender) || makers(kind(self.made(vote.view.0)), &vote.name) >> sender & 1 == 1
    }

    /// "each honest signer in it, weak certificates included, earlier made the vote (kind 1) for that certificate's
    /// view and name"
    fn permits_certificate(&self, certificate: &Certificate) -> bool {
        let made = makers(&self.made(certificate.view.0).votes, &certificate.name);
        certificate.signers & self.honest & !made == 0
    }

    fn permits_timeout(&self, timeout: &Timeout, raw: &[u8]) -> bool {
        let by_maker = !self.is_honest(timeout.sender) || contains(&self.made(timeout.view.0).timeouts, raw);
        by_maker && self.permits_certificate(&timeout.certificate)
    }

    /// "so too each timeout inside it with an honest sender"
    fn permits_timeouts(&self, certificate: &TimeoutCertificate<'_>) -> bool {
        let timeouts = certificate.timeouts;
        timeouts.iter().zip(timeouts.raw()).all(|(timeout, raw)| self.permits_timeout(&timeout, raw))
    }

    fn permits_proposal(&self, proposal: &Proposal<'_>, bytes: &[u8]) -> bool {
        let by_maker = !self.is_honest(proposal.sender) || contains(&self.made(proposal.view.0).proposals, bytes);
        by_maker
            && self.permits_block(&proposal.block)
            && match &proposal.progress {
                Progress::Block(certificate) => self.permits_certificate(certificate),
                Progress::Timeouts(certificate) => self.permits_timeouts(certificate),
            }
    }

    /// "by premise no two of these differ"
    pub fn permits_block(&self, block: &Block) -> bool {
        self.block(&block.name).is_none_or(|known| known == block)
    }
}

fn back(list: &mut Vec<Backing>, name: Name, replica: usize) {
    match list.iter_mut().find(|backing| backing.name == name) {
        Some(backing) => backing.makers |= 1 << replica,
        None => list.push(Backing { name, makers: 1 << replica }),
    }
}

/// Who made a vote for this name.
pub fn makers(list: &[Backing], name: &Name) -> u64 {
    list.iter().find(|backing| backing.name == *name).map_or(0, |backing| backing.makers)
}

fn contains(list: &[Rc<[u8]>], bytes: &[u8]) -> bool {
    list.iter().any(|record| **record == *bytes)
}
