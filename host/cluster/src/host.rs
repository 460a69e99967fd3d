//! An honest replica's process: sockets, clock and disk around the proved library.
//!
//! Every accepted call goes the same way: the replica is called, the whole state is saved, then its records are sent.
//! A process that is killed on the way goes on from the last save, so a call is either saved and sent (perhaps twice)
//! or lost whole.

use std::collections::{HashMap, HashSet, VecDeque};
use std::path::PathBuf;
use std::sync::mpsc::RecvTimeoutError;
use std::sync::Arc;
use std::time::{Duration, Instant};
use std::{io, thread};

use oracle::wire::{self, kind, Record};
use oracle::{Block, Name, View};
use replica::{raw, Certificate, Contents, Receiver, Refusal, Replica};

use crate::card::{self, Signature, Signatures, Signer, Statement, Verifier};
use crate::clock::Clock;
use crate::contents::{linked, Blocks, FullBlock};
use crate::frame::Frame;
use crate::net::{Event, Net};
use crate::state::{self, Counts, Release, Saved, Sending};
use crate::{entry_record, N};

/// The loop looks at the clock this often at least.
const TICK: Duration = Duration::from_millis(3);
/// How many of the last frames are sent again on a new connection or when a view lasts.
const OUTBOX: usize = 40;
/// Signatures are swept when there are so many.
const MANY_SIGNATURES: usize = 200;
/// The most blocks in one answer; a store has room for 128.
const LONGEST_CHAIN: usize = 120;
/// One block isn't asked for more often.
const ASK_AGAIN: Duration = Duration::from_millis(30);
/// An answer that comes later than this is none.
const FORGET_ASKED: Duration = Duration::from_secs(1);
/// Proposals that wait for a block.
const WAITING: usize = 8;

pub struct Options {
    pub folder: PathBuf,
    pub own: u16,
    /// Whether a save outlasts the machine, and not only the process.
    pub sync: bool,
    pub halt: Option<Halt>,
    pub breach: Option<Breach>,
}

/// For tests: a duty that the host doesn't keep to.
#[derive(Clone, Copy, Debug, PartialEq, Eq)]
pub enum Breach {
    /// What a call writes is sent before it is saved.
    SendsFirst,
    /// A restarted process opens its replica anew.
    Forgets,
}

impl Breach {
    pub const ALL: [Breach; 2] = [Breach::SendsFirst, Breach::Forgets];

    pub fn word(self) -> &'static str {
        match self {
            Breach::SendsFirst => "sends-first",
            Breach::Forgets => "forgets",
        }
    }

    pub fn of(word: &str) -> Option<Breach> {
        Breach::ALL.into_iter().find(|breach| breach.word() == word)
    }
}

/// For tests: at a point of its so manieth accepted call that sends something the process stands still, to be killed
/// there.
#[derive(Clone, Copy, Debug, PartialEq, Eq)]
pub struct Halt {
    pub call: u64,
    pub point: Point,
}

#[derive(Clone, Copy, Debug, PartialEq, Eq)]
pub enum Point {
    /// The replica was called, nothing is saved.
    Called,
    /// The new state is written, and the old one still in place.
    Written,
    /// The new state is in place, nothing is sent.
    Saved,
}

impl Point {
    pub const ALL: [Point; 3] = [Point::Called, Point::Written, Point::Saved];

    pub fn word(self) -> &'static str {
        match self {
            Point::Called => "called",
            Point::Written => "written",
            Point::Saved => "saved",
        }
    }

    pub fn of(word: &str) -> Option<Point> {
        Point::ALL.into_iter().find(|point| point.word() == word)
    }
}

/// A record from a connection.
struct Incoming {
    from: u16,
    record: Vec<u8>,
    signatures: Vec<Signature>,
    block: Option<FullBlock>,
}

impl Incoming {
    fn contents(&self) -> Option<Contents<'_>> {
        self.block.as_ref().map(|block| Contents(&block.contents))
    }

    /// The block that it proposes, if it does: what the record says of it, with the contents that came with it. If the
    /// replica takes it, they are the right ones.
    fn proposed(&self) -> Option<(Name, FullBlock)> {
        let Ok(Record::Proposal(proposal)) = wire::read(&self.record, u32::from(N)) else { return None };
        Some(full(&proposal.block, self.contents()?.0))
    }

    /// The block that it votes for, if it does and came with one. Whether it has that name is for the replica to say.
    fn voted(self) -> Option<(Name, FullBlock)> {
        let Ok(Record::Vote { vote, .. }) = wire::read(&self.record, u32::from(N)) else { return None };
        Some((vote.name, self.block?))
    }
}

enum Call<'a> {
    Record(&'a [u8], Option<Contents<'a>>),
    Timer(u64),
    Propose(Contents<'a>),
}

/// What a host may take as known once a call is accepted.
#[derive(Default)]
struct Known {
    statements: Vec<Statement>,
    signatures: Vec<Signature>,
    block: Option<(Name, FullBlock)>,
}

pub struct Host {
    options: Options,
    net: Net,
    replica: Replica,
    verifier: Verifier,
    signatures: Signatures,
    blocks: Blocks,
    row: Vec<Release>,
    outbox: VecDeque<Sending>,
    counts: Counts,
    clock: Clock,
    /// Accepted calls of this process that sent something.
    made: u64,
    waiting: VecDeque<Incoming>,
    /// Blocks asked for, and when.
    asked: HashMap<Name, Instant>,
}

impl Host {
    /// Goes on from the last save, or opens the replica if there is none.
    pub fn start(options: Options, keys: Vec<card::Key>) -> io::Result<Host> {
        let signer = Signer { own: options.own, key: keys[usize::from(options.own)] };
        let verifier = Verifier { keys };
        let saved = match state::load(&options.folder, options.own)? {
            Some(saved) if options.breach != Some(Breach::Forgets) => saved,
            _ => opened(options.own)?,
        };
        let host = Host {
            net: Net::start(&options.folder, N, &signer, Some(verifier.clone()))?,
            replica: Replica::restore(&saved.replica).map_err(io::Error::other)?,
            verifier,
            signatures: Signatures::new(signer, u32::from(N), saved.signatures),
            blocks: Blocks::new(saved.blocks),
            row: saved.row,
            outbox: saved.outbox.into(),
            counts: saved.counts,
            clock: Clock::start(),
            made: 0,
            waiting: VecDeque::new(),
            asked: HashMap::new(),
            options,
        };
        host.save()?;
        Ok(host)
    }

    pub fn run(mut self) -> io::Result<()> {
        loop {
            self.tick()?;
            match self.net.events.recv_timeout(TICK) {
                Ok(Event::Connected(to)) => self.send_again(Some(to)),
                Ok(Event::Frame { from, bytes }) => self.take(from, &bytes)?,
                Err(RecvTimeoutError::Timeout) => {}
                Err(RecvTimeoutError::Disconnected) => return Ok(()),
            }
        }
    }

    // ------------------------------------------------------------ what comes in

    fn take(&mut self, from: u16, bytes: &[u8]) -> io::Result<()> {
        match Frame::decode(bytes) {
            Some(Frame::Record { record, signatures, block }) => {
                self.take_record(Incoming { from, record, signatures, block })
            }
            Some(Frame::Ask { above, name }) => {
                self.answer(from, above, &name);
                Ok(())
            }
            Some(Frame::Chain(chain)) => self.take_chain(chain),
            None => {
                self.counts.no_frame += 1;
                Ok(())
            }
        }
    }

    fn take_record(&mut self, incoming: Incoming) -> io::Result<()> {
        let statements = card::statements(&incoming.record, u32::from(N));
        if !self.permits(&incoming, &statements) {
            return Ok(());
        }
        let proposed = incoming.proposed();
        let parent = proposed.as_ref().map(|(_, block)| block.parent);
        let known = Known { statements, signatures: incoming.signatures.clone(), block: proposed };
        match (self.call(Call::Record(&incoming.record, incoming.contents()), known)?, parent) {
            (Ok(()), None) => match incoming.voted() {
                Some((name, block)) => self.hold_unknown(name, block),
                None => Ok(()),
            },
            (Err(Refusal::ParentMissing), Some(parent)) => {
                self.ask(parent);
                self.wait(incoming);
                Ok(())
            }
            _ => Ok(()),
        }
    }

    /// Whether a record may be handed in: what the replica's proof asks of the host. What is no record may: it is
    /// refused.
    fn permits(&mut self, incoming: &Incoming, statements: &[Statement]) -> bool {
        let Ok(record) = wire::read(&incoming.record, u32::from(N)) else { return true };
        let counts = &mut self.counts;
        let objection = if matches!(record, Record::Block { .. }) {
            &mut counts.no_frame // blocks are asked for, and come with votes
        } else if is_straight(&record) && wire::sender_of(&incoming.record) != incoming.from {
            &mut counts.foreign
        } else if !self.verifier.verify_all(statements, &incoming.signatures) {
            &mut counts.unsigned
        } else if matches!(record, Record::Proposal(_)) && incoming.block.is_none() {
            &mut counts.without_contents // its name couldn't be checked
        } else {
            return true;
        };
        *objection += 1;
        false
    }

    fn wait(&mut self, incoming: Incoming) {
        self.waiting.push_back(incoming);
        if self.waiting.len() > WAITING {
            self.waiting.pop_front();
        }
    }

    // ------------------------------------------------------------ blocks

    /// Asks all others for a block that isn't held.
    fn ask(&mut self, name: Name) {
        if self.blocks.has(&name) || self.asked.get(&name).is_some_and(|when| when.elapsed() < ASK_AGAIN) {
            return;
        }
        self.asked.retain(|_, when| when.elapsed() < FORGET_ASKED);
        self.asked.insert(name, Instant::now());
        let above = self.replica.tip().height.0;
        self.send(&Sending { to: None, frame: Frame::Ask { above, name }.encode() });
    }

    fn answer(&self, to: u16, above: u64, name: &Name) {
        let chain = self.blocks.chain(name, above, LONGEST_CHAIN);
        if !chain.is_empty() {
            self.send(&Sending { to: Some(to), frame: Frame::Chain(chain).encode() });
        }
    }

    /// The block asked for, and those below it: names tell that they are the right ones.
    fn take_chain(&mut self, chain: Vec<FullBlock>) -> io::Result<()> {
        let Some(chain) = linked(chain) else {
            self.counts.no_frame += 1;
            return Ok(());
        };
        // Several answer: the first is taken.
        if chain.first().and_then(|(top, _)| self.asked.remove(top)).is_none() {
            return Ok(());
        }
        for (name, block) in chain.into_iter().rev() {
            self.hold_unknown(name, block)?;
        }
        for incoming in std::mem::take(&mut self.waiting) {
            self.take_record(incoming)?;
        }
        Ok(())
    }

    /// Hands in a block that isn't held yet, as a record of kind 8 with its contents.
    fn hold_unknown(&mut self, name: Name, block: FullBlock) -> io::Result<()> {
        if self.blocks.has(&name) {
            return Ok(());
        }
        let record = block.record(self.options.own, name);
        let known = Known { block: Some((name, block.clone())), ..Known::default() };
        if self.call(Call::Record(&record, Some(Contents(&block.contents))), known)? == Err(Refusal::ParentMissing) {
            self.ask(name);
        }
        Ok(())
    }

    /// Forgets the blocks that the replica dropped. It holds others, and released ones are asked for by those who come
    /// late.
    fn forget_dropped(&mut self) {
        let held = self.replica.held().iter().map(|block| block.name.bytes);
        let kept: HashSet<Name> = held.chain(self.row.iter().map(|release| release.name)).collect();
        self.blocks.retain(&kept);
    }

    // ------------------------------------------------------------ clock and turn

    fn tick(&mut self) -> io::Result<()> {
        let view = self.replica.view().0;
        self.clock.follow(view);
        if self.clock.ran_out() {
            self.time_out(view)?;
        }
        if self.is_turn() {
            self.propose()?;
        }
        self.ask(self.replica.lock().name.bytes);
        Ok(())
    }

    /// The first time in a view that is a timeout; later ones send again what others may have missed.
    fn time_out(&mut self, view: u64) -> io::Result<()> {
        if self.replica.timed().0 < view {
            _ = self.call(Call::Timer(view), Known::default())?;
        } else {
            self.send_again(None);
        }
        Ok(())
    }

    fn is_turn(&self) -> bool {
        let view = self.replica.view();
        self.replica.leader(view) == Some(self.options.own)
            && self.replica.timed() < view
            && self.replica.high_vote().is_none_or(|vote| vote.view < view)
            && self.clock.may_propose()
    }

    /// The library makes the name; where it lacks the safe block, that is one of those that the entry certificate names.
    fn propose(&mut self) -> io::Result<()> {
        let contents = self.next_contents();
        if self.call(Call::Propose(Contents(&contents)), Known::default())? == Err(Refusal::ParentMissing) {
            let names = self.replica.entry().map(|entry| entry.names()).unwrap_or_default();
            names.into_iter().for_each(|name| self.ask(name.bytes));
        }
        Ok(())
    }

    /// Contents of any length, no two alike: the view and a number of its own stand first.
    fn next_contents(&self) -> Vec<u8> {
        let number = u64::from(self.options.own) << 48 | self.counts.calls;
        let mut contents = [self.replica.view().0, number].map(u64::to_le_bytes).concat();
        let length = match self.counts.calls % 8 {
            0 => raw::CONTENTS,
            short => contents.len() + 11 * short as usize,
        };
        contents.resize(length, 0);
        contents
    }

    // ------------------------------------------------------------ one call

    /// Calls the replica, saves, sends.
    fn call(&mut self, call: Call<'_>, known: Known) -> io::Result<Result<(), Refusal>> {
        let reply = match call {
            Call::Record(record, Some(contents)) => self.replica.record_with(record, contents),
            Call::Record(record, None) => self.replica.record(record),
            Call::Timer(view) => self.replica.timer(replica::View(view)),
            Call::Propose(contents) => self.replica.propose_contents(contents).map(|(_, accepted)| accepted),
        };
        // What is written is part of what is saved, so it is read before; nothing of it leaves before the save.
        let output = match reply {
            Ok(accepted) => accepted.unsaved().sendings().map(owned).collect::<Vec<_>>(),
            Err(refusal) => {
                self.counts.refused[refusal.number() as usize] += 1;
                return Ok(Err(refusal));
            }
        };
        self.learn(known);
        if let Call::Propose(contents) = call {
            self.learn_own(&output, contents);
        }
        self.counts.calls += 1;
        let released = self.row.len();
        let sendings: Vec<Sending> = output.iter().filter_map(|written| self.pack(written)).collect();
        if self.row.len() > released {
            self.forget_dropped();
        }
        self.made += u64::from(!sendings.is_empty());
        self.keep(&sendings);
        let sends_first = self.options.breach == Some(Breach::SendsFirst);
        if sends_first {
            self.send_all(&sendings);
        }
        self.halt_at(Point::Called)?;
        self.save()?;
        self.halt_at(Point::Saved)?;
        if !sends_first {
            self.send_all(&sendings);
        }
        Ok(Ok(()))
    }

    fn send_all(&self, sendings: &[Sending]) {
        sendings.iter().for_each(|sending| self.send(sending));
    }

    fn learn(&mut self, known: Known) {
        self.signatures.learn(known.statements, &known.signatures);
        if let Some((name, block)) = known.block {
            self.blocks.learn(name, block);
        }
    }

    /// The block of an own proposal is what the record says that the call wrote.
    fn learn_own(&mut self, output: &[Written], contents: Contents<'_>) {
        for written in output {
            if let Ok(Record::Proposal(proposal)) = wire::read(&written.record, u32::from(N)) {
                let (name, block) = full(&proposal.block, contents.0);
                self.blocks.learn(name, block);
            }
        }
    }

    /// A record of the output as it is sent, none for a release or what goes to oneself.
    fn pack(&mut self, written: &Written) -> Option<Sending> {
        let to = match written.receiver {
            Receiver::Host => {
                self.release(&written.record);
                return None;
            }
            Receiver::Others => None,
            Receiver::Leader(leader) => Some(leader as u16),
        };
        if to == Some(self.options.own) {
            return None;
        }
        let frame = self.sign(&written.record)?;
        self.counts.sent += to.map_or(u64::from(N) - 1, |_| 1);
        Some(Sending { to, frame: frame.encode() })
    }

    /// A record with its signatures, and with the block that it proposes or votes for.
    fn sign(&mut self, record: &[u8]) -> Option<Frame> {
        let Some(signatures) = self.signatures.gather(record) else {
            self.counts.unbacked += 1;
            return None;
        };
        let is_named = matches!(wire::kind_of(record), kind::VOTE | kind::PROPOSAL);
        let block = is_named.then(|| self.blocks.get(&wire::name_at(record, 16)).cloned()).flatten();
        Some(Frame::Record { record: record.to_vec(), signatures, block })
    }

    fn release(&mut self, record: &[u8]) {
        let [view, height] = [8, 48].map(|at| wire::u64_at(record, at));
        self.row.push(Release { view, name: wire::name_at(record, 16), height });
        self.clock.calm();
    }

    fn keep(&mut self, sendings: &[Sending]) {
        self.outbox.extend(sendings.iter().cloned());
        let over = self.outbox.len().saturating_sub(OUTBOX);
        self.outbox.drain(..over);
        if self.signatures.known().len() > MANY_SIGNATURES {
            let weak = self.replica.best_weak().unwrap_or_default();
            let certificates = [entry_record(&self.replica), as_record(self.replica.lock()), as_record(weak)];
            self.signatures.sweep(self.replica.view().0, &certificates);
        }
    }

    fn save(&self) -> io::Result<()> {
        let saved = Saved {
            counts: self.counts.clone(),
            view: self.replica.view().0,
            row: self.row.clone(),
            blocks: self.blocks.0.values().cloned().collect(),
            replica: self.replica.save(),
            outbox: self.outbox.iter().cloned().collect(),
            signatures: self.signatures.known().iter().map(|(statement, tag)| (statement.clone(), *tag)).collect(),
        };
        let path = state::state_file(&self.options.folder, self.options.own);
        let written = state::write_beside(&path, &saved.encode(), self.options.sync)?;
        self.halt_at(Point::Written)?;
        state::put_in_place(&written, &path, self.options.sync)
    }

    fn halt_at(&self, point: Point) -> io::Result<()> {
        if self.options.halt != Some(Halt { call: self.made, point }) {
            return Ok(());
        }
        let path = crate::halted_file(&self.options.folder, self.options.own);
        state::replace(&path, self.counts.calls.to_string().as_bytes(), false)?;
        loop {
            thread::park();
        }
    }

    // ------------------------------------------------------------ what goes out

    fn send(&self, sending: &Sending) {
        let frame: Arc<[u8]> = sending.frame.as_slice().into();
        for to in (0..N).filter(|to| sending.to.is_none_or(|only| only == *to)) {
            self.net.send(to, &frame);
        }
    }

    /// What the replica entered its view by, and its last frames, to one or to all others. Whoever has them refuses
    /// them.
    fn send_again(&mut self, to: Option<u16>) {
        let entry = entry_record(&self.replica);
        if wire::u64_at(&entry, 8) > 0 {
            if let Some(frame) = self.sign(&entry) {
                self.send(&Sending { to, frame: frame.encode() });
            }
        }
        for sending in &self.outbox {
            if to.is_none() || sending.to.is_none() || sending.to == to {
                self.send(&Sending { to: to.or(sending.to), frame: sending.frame.clone() });
            }
        }
    }
}

/// Whether only its sender sends it.
fn is_straight(record: &Record<'_>) -> bool {
    use Record::{Commit, Proposal, Timeout, Vote};
    matches!(record, Vote { .. } | Commit { .. } | Timeout { .. } | Proposal(_))
}

/// A block with these contents, and its name.
fn full(block: &Block, contents: &[u8]) -> (Name, FullBlock) {
    (block.name, FullBlock { parent: block.parent, height: block.height.0, contents: contents.to_vec() })
}

/// A record that a call wrote, and where it goes.
struct Written {
    receiver: Receiver,
    record: Vec<u8>,
}

fn owned((receiver, record): (Receiver, replica::Record<'_>)) -> Written {
    Written { receiver, record: record.bytes.to_vec() }
}

/// A replica that was opened and has done nothing.
pub fn opened(own: u16) -> io::Result<Saved> {
    let replica = crate::open(own)?;
    Ok(Saved {
        counts: Counts::default(),
        view: replica.view().0,
        row: Vec::new(),
        blocks: Vec::new(),
        replica: replica.save(),
        outbox: Vec::new(),
        signatures: Vec::new(),
    })
}

/// A certificate's votes as a record of kind 3, weak or not.
fn as_record(certificate: Certificate) -> Vec<u8> {
    let Certificate { view, name, signers } = certificate;
    let mut record = Vec::new();
    wire::write_block_certificate(&mut record, 0, &oracle::Certificate::block(View(view.0), name.bytes, signers));
    record
}
