//! A stream of calls: moods that last a while, good calls and spoiled ones.

use oracle::{Replica, View};

use crate::call::Call;
use crate::contents::Contents;
use crate::good::Maker;
use crate::leaders::next_led;
use crate::random::Random;

/// What calls are likely for a while.
#[derive(Clone, Copy, Debug, PartialEq, Eq)]
enum Mood {
    /// Proposals, votes, certificates, commits: the chain grows.
    Progress,
    /// Timers, timeouts and their certificates.
    Timeouts,
    /// Blocks until the store is full, in all branches.
    Bush,
    /// Blocks one on another.
    Chain,
    /// Votes and commits for the highest block.
    Decide,
    /// Every call alike.
    Mixed,
    /// Certificates of views near 2^62.
    Jump,
}

#[derive(Clone, Copy, Debug)]
enum Action {
    Live,
    Vote,
    Commit,
    BlockCertificate,
    Timeout,
    TimeoutCertificate,
    Proposal,
    Block,
    ChainBlock,
    DecidingVote,
    DecidingCommit,
    Jump,
    Timer,
    Propose,
    Noise,
}

impl Mood {
    fn actions(self) -> &'static [(u64, Action)] {
        use Action::*;
        match self {
            Mood::Progress => &[
                (60, Live),
                (12, Vote),
                (12, Commit),
                (1, BlockCertificate),
                (2, Proposal),
                (1, Propose),
                (2, Block),
                (1, Timeout),
            ],
            Mood::Timeouts => &[
                (40, Timeout),
                (10, Timer),
                (8, TimeoutCertificate),
                (10, Proposal),
                (6, Propose),
                (4, Vote),
                (2, Commit),
            ],
            Mood::Bush => &[(60, Block), (5, Proposal), (5, Propose), (2, Vote), (1, TimeoutCertificate)],
            Mood::Chain => &[(60, ChainBlock), (3, Proposal), (3, Propose), (2, Commit), (1, BlockCertificate)],
            Mood::Decide => &[(30, DecidingVote), (40, DecidingCommit), (5, ChainBlock), (5, Proposal)],
            Mood::Mixed => &[
                (10, Vote),
                (10, Commit),
                (10, BlockCertificate),
                (10, Timeout),
                (10, TimeoutCertificate),
                (14, Proposal),
                (10, Block),
                (8, Timer),
                (8, Propose),
                (2, Noise),
            ],
            Mood::Jump => {
                &[(30, Jump), (10, Vote), (10, Commit), (10, Timeout), (10, Proposal), (5, Timer), (5, Propose)]
            }
        }
    }
}

/// A seeded generator of calls for one replica.
#[derive(Clone, Debug)]
pub struct Stream {
    random: Random,
    mood: Mood,
    /// Calls until the mood changes.
    left: u64,
    /// How many in a hundred calls are spoiled.
    spoiled: u64,
    /// Whether it may go to the last views, which end a run: only one stream in four does.
    jumps: bool,
    /// Whether moods change after a few calls.
    restless: bool,
    /// Where calls come with contents at times.
    contents: Option<Contents>,
}

impl Stream {
    pub fn new(seed: u64) -> Stream {
        let mut random = Random::new(seed);
        let spoiled = random.pick(&[10, 30, 45]);
        let jumps = random.chance(25);
        Stream { random, mood: Mood::Progress, left: 20, spoiled, jumps, restless: false, contents: None }
    }

    /// A stream for few calls: moods change soon, from the first call on, and fewer calls are spoiled.
    pub fn restless(seed: u64) -> Stream {
        Stream { left: 0, spoiled: 8, restless: true, ..Stream::new(seed) }
    }

    /// The same in which calls come with contents, and new blocks are named by theirs, at times.
    pub fn with_contents(mut self) -> Stream {
        self.contents = Some(Contents::new(self.random.clone().number()));
        self
    }

    /// The next call, in view of the replica's state.
    pub fn next(&mut self, replica: &Replica) -> Call {
        let call = self.plain(replica);
        self.join_contents(call, replica)
    }

    /// The call as it is, or with contents where they come.
    pub fn join_contents(&mut self, call: Call, replica: &Replica) -> Call {
        match &mut self.contents {
            Some(contents) => contents.join(call, replica),
            None => call,
        }
    }

    fn plain(&mut self, replica: &Replica) -> Call {
        self.change_mood(replica);
        let action = self.random.weighted(self.mood.actions());
        let spoiled = self.random.chance(self.spoiled);
        let mut maker = Maker { random: &mut self.random, replica, jumps: self.jumps };
        maker.call(action, spoiled)
    }

    fn change_mood(&mut self, replica: &Replica) {
        if self.left > 0 {
            self.left -= 1;
            return;
        }
        let full = replica.memory.store.is_full();
        let near_end = replica.counters.view.0 > View::MAX.0 - 64;
        let at_end = replica.counters.view == View::MAX; // little is taken here
        self.mood = self.random.weighted(&[
            (40, Mood::Progress),
            (if at_end { 2 } else { 25 }, Mood::Timeouts),
            (if full { 1 } else { 5 }, Mood::Bush),
            (if full { 1 } else { 4 }, Mood::Chain),
            (if full { 20 } else { 8 }, Mood::Decide),
            (20, Mood::Mixed),
            (
                if self.jumps {
                    if near_end {
                        8
                    } else {
                        3
                    }
                } else {
                    0
                },
                Mood::Jump,
            ),
        ]);
        self.left = match self.mood {
            _ if self.restless => self.random.between(1, 6),
            Mood::Bush | Mood::Chain => self.random.between(20, 300),
            Mood::Jump => self.random.between(5, 40),
            _ => self.random.between(20, 150),
        };
    }
}

impl Maker<'_> {
    fn call(&mut self, action: Action, spoiled: bool) -> Call {
        let mut record = match self.possible(action) {
            Action::Timer => return Call::Timer(self.timer_view(spoiled)),
            Action::Propose if self.may_propose() || self.random.chance(20) => {
                return Call::Propose(self.proposed_name(spoiled));
            }
            Action::Propose => self.hand_over(),
            Action::Noise => return Call::Record(self.noise()),
            Action::Live => return self.live(spoiled),
            Action::Vote => self.vote(),
            Action::Commit => self.commit(),
            Action::BlockCertificate => self.block_certificate(),
            Action::Timeout => self.timeout(),
            Action::TimeoutCertificate => self.timeout_certificate(),
            Action::Proposal => self.proposal(),
            Action::Block => self.block(),
            Action::ChainBlock => self.chain_block(),
            Action::DecidingVote => self.deciding(false),
            Action::DecidingCommit => self.deciding(true),
            Action::Jump => self.jump(),
        };
        if spoiled {
            self.spoil(&mut record);
        }
        Call::Record(record)
    }

    /// In a cluster of one no other replica votes, commits, times out or proposes: mostly another action stands in.
    fn possible(&mut self, action: Action) -> Action {
        use Action::*;
        let by_another = matches!(action, Vote | Commit | Timeout | Proposal | DecidingVote | DecidingCommit);
        if self.settings().n() > 1 || !by_another || self.random.chance(10) {
            return action;
        }
        self.random.pick(&[Propose, Timer, Block, BlockCertificate, TimeoutCertificate])
    }

    /// What comes next where all goes well: a proposal, then votes for it, and commits for the lock.
    fn live(&mut self, spoiled: bool) -> Call {
        let counters = self.replica.counters;
        let action = if self.may_propose() {
            Action::Propose
        } else if counters.high_vote.view.max(counters.timed) < counters.view && counters.view < View::MAX {
            Action::Proposal
        } else {
            self.random.pick(&[Action::Vote, Action::Vote, Action::Commit])
        };
        self.call(action, spoiled)
    }

    fn may_propose(&self) -> bool {
        let counters = &self.replica.counters;
        self.replica.leader(counters.view) == self.replica.own()
            && counters.timed < counters.view
            && counters.high_vote.view < counters.view
            && counters.view < View::MAX
    }

    /// A certificate by which the replica enters the next view that it leads, or just the next one if it never does.
    fn hand_over(&mut self) -> Vec<u8> {
        let entered = self.view() + 1;
        let view = next_led(self.replica, entered).unwrap_or(entered) - 1;
        let view = view.min(View::MAX.0 - 1);
        if self.random.chance(50) {
            return self.block_certificate_in(view);
        }
        let sender = self.any_replica();
        self.timeout_certificate_in(sender, view)
    }

    fn timer_view(&mut self, spoiled: bool) -> u64 {
        if spoiled {
            self.odd_view()
        } else {
            self.view()
        }
    }

    fn proposed_name(&mut self, spoiled: bool) -> oracle::Name {
        match self.random.below(3) {
            0 if spoiled => oracle::GENESIS,
            1 if spoiled => self.held_block().name,
            _ => self.fresh_name(),
        }
    }

    /// Bytes without any sense, or a header without a record.
    pub fn noise(&mut self) -> Vec<u8> {
        let length = self.random.below(140);
        let mut bytes: Vec<u8> = (0..length).map(|_| self.random.number() as u8).collect();
        if bytes.len() >= 8 && self.random.chance(70) {
            bytes[..4].copy_from_slice(&(length as u32).to_le_bytes());
            bytes[4] = self.random.below(14) as u8;
            bytes[5] = 0;
        }
        bytes
    }

    /// A good certificate or proposal of one of the last views, or of one far off.
    fn jump(&mut self) -> Vec<u8> {
        let last = View::MAX.0 - 1;
        let far = self.random.between(last - 200, last - 5);
        let view = self.random.weighted(&[(9, far), (1, last)]).max(self.view()).min(last);
        match self.random.below(3) {
            0 => self.block_certificate_in(view),
            1 => {
                let sender = self.any_replica();
                self.timeout_certificate_in(sender, view)
            }
            _ => self.proposal_in(view),
        }
    }
}
