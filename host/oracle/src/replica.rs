//! The replica: its state, its calls, and what each event does.

use crate::certificate::{Certificate, CertificateKind, Timeout};
use crate::faults::Faults;
use crate::judge::{Contents, Judged, Placed};
use crate::kept::{BallotRows, EntryCertificate, TimeoutRows};
use crate::leaders::Leaders;
use crate::misreading::Beside;
use crate::settings::{Protocol, Settings};
use crate::store::Store;
use crate::types::{Block, Name, Refusal, Reply, View, Vote, GENESIS};
use crate::wire::{self, Progress, Record, TimeoutCertificate, Timeouts};

/// 01: "The box's counters are one record that every call updates".
#[derive(Clone, Copy, Debug, PartialEq, Eq)]
pub struct Counters {
    pub view: View,
    /// The highest view it sent a timeout for.
    pub timed: View,
    /// The last vote it sent.
    pub high_vote: Vote,
    /// The highest block certificate adopted.
    pub lock: Certificate,
    /// The highest weak certificate adopted; one of view 0 is none.
    pub best_weak: Certificate,
    /// The last block released.
    pub tip: Block,
}

impl Counters {
    /// 01: "view (1), timed (0), high vote (none), lock (genesis certificate), best weak (none), tip (genesis)".
    pub const OPENED: Counters = Counters {
        view: View(1),
        timed: View(0),
        high_vote: Vote::NONE,
        lock: Certificate::GENESIS,
        best_weak: Certificate::weak(View(0), GENESIS, 0),
        tip: Block::GENESIS,
    };
}

/// All that a replica keeps beside its counters.
#[derive(Clone, Debug, PartialEq, Eq)]
pub struct Memory {
    pub leaders: Leaders,
    pub entry: EntryCertificate,
    pub votes: BallotRows,
    pub commits: BallotRows,
    pub timeouts: TimeoutRows,
    pub store: Store,
}

/// One replica. Its counters and memory are open to tests that start from any state; calls answer 2 where
/// `is_sound` is false and bear everything else.
#[derive(Clone, Debug, PartialEq, Eq)]
pub struct Replica {
    protocol: Protocol,
    own: u16,
    pub counters: Counters,
    pub memory: Box<Memory>,
}

impl Replica {
    /// Opens a replica: refusal 1 where "settings break a rule above, or own number ≥ n", and by 02 for "An entry of n or
    /// more, or an empty or longer list".
    pub fn open(f: u64, c: u64, k: u64, n: u64, own: u64, leaders: &[u8]) -> Result<Replica, Refusal> {
        let settings = Settings::new(f, c, k).ok_or(Refusal::Settings)?;
        if u64::from(settings.n()) != n || own >= n {
            return Err(Refusal::Settings);
        }
        let leaders = Leaders::new(leaders, settings).ok_or(Refusal::Settings)?;
        Ok(Self::opened(settings, own as u16, leaders))
    }

    fn opened(settings: Settings, own: u16, leaders: Leaders) -> Replica {
        let mut memory = Box::new(Memory {
            leaders,
            entry: EntryCertificate::EMPTY,
            votes: BallotRows::EMPTY,
            commits: BallotRows::EMPTY,
            timeouts: TimeoutRows::EMPTY,
            store: Store::EMPTY,
        });
        let mut genesis = Vec::new();
        wire::write_block_certificate(&mut genesis, own, &Certificate::GENESIS);
        memory.entry.set(&genesis);
        Replica::of(settings, own, Counters::OPENED, memory)
    }

    /// A replica of any state, whether or not it is sound.
    pub(crate) fn of(settings: Settings, own: u16, counters: Counters, memory: Box<Memory>) -> Replica {
        Replica { protocol: Protocol::new(settings, Faults::NONE), own, counters, memory }
    }

    /// The same with these errors built in.
    pub fn with_faults(self, faults: Faults) -> Replica {
        Replica { protocol: Protocol::new(self.settings(), faults), ..self }
    }

    pub fn settings(&self) -> Settings {
        self.protocol.settings
    }

    pub fn protocol(&self) -> &Protocol {
        &self.protocol
    }

    pub fn own(&self) -> u16 {
        self.own
    }

    /// The leader of a view ≥ 1, by the list that is kept.
    pub fn leader(&self, view: View) -> u16 {
        self.memory.leaders.leader(view)
    }

    /// The call "record" with any bytes. Output is appended to `out`. A refusal changes nothing.
    pub fn record(&mut self, bytes: &[u8], out: &mut Vec<u8>) -> Reply {
        self.call(out, |replica, out| replica.record_event(bytes, None, out))
    }

    /// The same with contents: those of the block, if it brings one.
    pub fn record_with(&mut self, bytes: &[u8], contents: &[u8], out: &mut Vec<u8>) -> Reply {
        let contents = self.read_contents(Beside::Record(bytes), contents)?;
        self.call(out, |replica, out| replica.record_event(bytes, contents, out))
    }

    /// The call "timer": the host's clock for a view ran out.
    pub fn timer(&mut self, view: View, out: &mut Vec<u8>) -> Reply {
        self.call(out, |replica, out| replica.timer_event(view, out))
    }

    /// The call "propose".
    pub fn propose(&mut self, name: Name, out: &mut Vec<u8>) -> Reply {
        self.call(out, |replica, out| replica.propose_event(name, None, out))
    }

    /// The same with the proposed block's contents.
    pub fn propose_with(&mut self, name: Name, contents: &[u8], out: &mut Vec<u8>) -> Reply {
        let contents = self.read_contents(Beside::Propose(name), contents)?;
        self.call(out, |replica, out| replica.propose_event(name, contents, out))
    }

    /// An event, and then the rules.
    fn call(&mut self, out: &mut Vec<u8>, event: impl FnOnce(&mut Replica, &mut Vec<u8>) -> Judged) -> Reply {
        let start = out.len();
        event(self, out)?;
        self.settle(out);
        Ok(out.len() - start)
    }

    /// The contents that the call goes on with: none where a misreading has judged them.
    fn read_contents<'a>(&self, beside: Beside<'_>, contents: &'a [u8]) -> Result<Contents<'a>, Refusal> {
        match self.protocol.faults.misreading {
            None => Ok(Some(contents)),
            Some(misreading) => misreading.judge(self, beside, contents).map(|()| None),
        }
    }

    /// What a record does before the rules run, or its refusal.
    pub(crate) fn record_event(&mut self, bytes: &[u8], contents: Contents<'_>, out: &mut Vec<u8>) -> Judged {
        self.judge_regions(contents)?;
        match wire::read(bytes, self.settings().n())? {
            Record::Vote { sender, vote } => {
                self.judge_ballot(&self.memory.votes, sender, vote)?;
                self.memory.votes.row_mut(vote.view).put(sender, vote.name);
            }
            Record::Commit { sender, vote } => {
                self.judge_ballot(&self.memory.commits, sender, vote)?;
                self.memory.commits.row_mut(vote.view).put(sender, vote.name);
            }
            Record::BlockCertificate { sender, certificate } => {
                self.judge_block_certificate(sender, &certificate)?;
                self.take_block_certificate(certificate, out);
            }
            Record::Timeout { timeout, raw } => {
                self.judge_timeout(&timeout, raw)?;
                self.memory.timeouts.row_mut(timeout.view).put(timeout.sender, raw);
            }
            Record::TimeoutCertificate { sender, certificate } => {
                self.judge_timeout_certificate(sender, &certificate)?;
                self.take_timeout_certificate(&certificate, out);
            }
            Record::Proposal(proposal) => {
                let placed = self.judge_proposal(&proposal, contents)?;
                if proposal.view > self.counters.view {
                    self.take_progress(&proposal.progress, out);
                }
                self.take_proposal(proposal.view, placed, out);
            }
            Record::Block { sender, block } => {
                self.judge_block(sender, &block, contents)?;
                self.memory.store.push(block);
            }
        }
        Ok(())
    }

    pub(crate) fn timer_event(&mut self, view: View, out: &mut Vec<u8>) -> Judged {
        self.judge_regions(None)?;
        self.judge_timer(view)?;
        self.send_timeout(view, out);
        Ok(())
    }

    /// 01: "build on the safe block of the entry certificate, send, and take the proposal as one's own."
    pub(crate) fn propose_event(&mut self, name: Name, contents: Contents<'_>, out: &mut Vec<u8>) -> Judged {
        self.judge_regions(contents)?;
        let placed = self.judge_propose(name, contents)?;
        let view = self.counters.view;
        wire::write_proposal(out, self.own, view, &placed.block, self.memory.entry.record());
        self.take_proposal(view, placed, out);
        Ok(())
    }

    /// 01: "a block certificate above the lock becomes the lock; a weak one above the best weak replaces it."
    pub(crate) fn adopt(&mut self, certificate: Certificate) {
        let counters = &mut self.counters;
        match certificate.kind {
            CertificateKind::Block => {
                if certificate.outranks(&counters.lock) {
                    counters.lock = certificate;
                }
            }
            CertificateKind::Weak => {
                if certificate.outranks(&counters.best_weak) {
                    counters.best_weak = certificate;
                }
            }
        }
    }

    /// 01: "Block certificate of view w: adopt. If w ≥ view: send it, enter w+1, and send a commit for w if timed < w."
    pub(crate) fn take_block_certificate(&mut self, certificate: Certificate, out: &mut Vec<u8>) {
        self.adopt(certificate);
        if certificate.view >= self.counters.view {
            self.pass_block_certificate(&certificate, out);
        }
    }

    /// Sends it, enters the next view and commits.
    fn pass_block_certificate(&mut self, certificate: &Certificate, out: &mut Vec<u8>) {
        let start = out.len();
        wire::write_block_certificate(out, self.own, certificate);
        self.enter_after(certificate.view, &out[start..]);
        if self.counters.timed < certificate.view || self.protocol.faults.commit_after_timeout {
            self.send_commit(Vote { view: certificate.view, name: certificate.name }, out);
        }
    }

    /// 01: "Timeout certificate of view w ≥ view: adopt its safe certificate, send it to the next leader, enter w+1."
    fn take_timeout_certificate(&mut self, certificate: &TimeoutCertificate<'_>, out: &mut Vec<u8>) {
        self.adopt(self.protocol.safe_certificate(certificate.timeouts));
        self.pass_timeout_certificate(certificate, out);
    }

    /// Sends it and enters the next view.
    fn pass_timeout_certificate(&mut self, certificate: &TimeoutCertificate<'_>, out: &mut Vec<u8>) {
        let start = out.len();
        wire::write_resent(out, self.own, certificate.bytes);
        self.enter_after(certificate.view, &out[start..]);
    }

    /// What a formed timeout certificate does that stands in the output from `start` on.
    pub(crate) fn take_written_timeout_certificate(&mut self, view: View, start: usize, out: &[u8]) {
        let record = &out[start..];
        self.adopt(self.protocol.safe_certificate(Timeouts::of(record)));
        self.enter_after(view, record);
    }

    /// A proposal of a higher view does what its certificate does, but for the adopting, which is left to
    /// `take_proposal`.
    fn take_progress(&mut self, progress: &Progress<'_>, out: &mut Vec<u8>) {
        match progress {
            Progress::Block(certificate) => self.pass_block_certificate(certificate, out),
            Progress::Timeouts(certificate) => self.pass_timeout_certificate(certificate, out),
        }
    }

    /// Adopts the safe certificate, holds the block and votes. 01: "hold the block; if timed < v and high vote is
    /// below v, vote for it and make it high vote."
    fn take_proposal(&mut self, view: View, placed: Placed, out: &mut Vec<u8>) {
        if !self.protocol.faults.safe_not_adopted {
            self.adopt(placed.safe);
        }
        if placed.is_new {
            self.memory.store.push(placed.block);
        }
        let timed_out = self.counters.timed >= view && !self.protocol.faults.vote_after_timeout;
        if !timed_out && self.counters.high_vote.view < view {
            self.send_vote(Vote { view, name: placed.block.name }, out);
        }
    }

    /// Enters the view after `view` by this certificate. Rows of views that leave the windows are emptied.
    fn enter_after(&mut self, view: View, certificate: &[u8]) {
        let from = self.counters.view;
        let to = View(view.0 + 1);
        self.memory.votes.advance(from, to);
        self.memory.commits.advance(from, to);
        self.memory.timeouts.advance(from, to);
        self.memory.entry.set(certificate);
        self.counters.view = to;
    }

    fn send_vote(&mut self, vote: Vote, out: &mut Vec<u8>) {
        wire::write_vote(out, self.own, vote);
        self.memory.votes.row_mut(vote.view).put(self.own, vote.name);
        self.counters.high_vote = vote;
    }

    fn send_commit(&mut self, vote: Vote, out: &mut Vec<u8>) {
        wire::write_commit(out, self.own, vote);
        self.memory.commits.row_mut(vote.view).put(self.own, vote.name);
    }

    /// 01: "send a timeout (high vote, and the higher of lock and best weak); timed = view."
    pub(crate) fn send_timeout(&mut self, view: View, out: &mut Vec<u8>) {
        let raw = wire::raw_timeout(&Timeout {
            sender: self.own,
            view,
            high_vote: self.counters.high_vote,
            certificate: self.highest_certificate(),
        });
        out.extend_from_slice(&raw);
        self.memory.timeouts.row_mut(view).put(self.own, &raw);
        self.counters.timed = view;
    }

    /// The higher of lock and best weak.
    pub fn highest_certificate(&self) -> Certificate {
        let Counters { lock, best_weak, .. } = self.counters;
        let weak_is_higher = best_weak.view > View(0) && self.protocol.outranks(&best_weak, &lock);
        if weak_is_higher {
            best_weak
        } else {
            lock
        }
    }
}
