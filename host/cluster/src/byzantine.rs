//! The Byzantine process. It follows the protocol with a replica of its own to know what is going on, and lies about
//! what that one says: two blocks in its view, votes, commits and high votes for several names, each replica told
//! something else, much withheld; beside that forged signatures, records of others, and garbage. It has its own key
//! only.

use std::path::Path;
use std::sync::mpsc::RecvTimeoutError;
use std::sync::Arc;
use std::time::Duration;
use std::{fs, io};

use oracle::wire::{self, kind, Progress};
use oracle::{Block, Certificate, Height, Name, Protocol, View, Vote, GENESIS};
use replica::{raw, Refusal, Replica};
use streams::Random;

use crate::card::{self, Signature, Signatures, Signer};
use crate::contents::{Blocks, FullBlock};
use crate::frame::Frame;
use crate::net::{Event, Net};
use crate::{entry_record, key_file, N};

const TICK: Duration = Duration::from_millis(4);
/// Frames of others that it remembers.
const SEEN: usize = 32;
/// Blocks that it chooses false votes from.
const RECENT: usize = 6;

struct Liar {
    net: Net,
    own: u16,
    protocol: Protocol,
    replica: Replica,
    signatures: Signatures,
    blocks: Blocks,
    recent: Vec<FullBlock>,
    seen: Vec<Frame>,
    /// The last view that it did something about as leader.
    led: u64,
    random: Random,
}

pub fn run(folder: &Path, own: u16, seed: u64) -> io::Result<()> {
    let key = fs::read(key_file(folder, own))?;
    let key = key.try_into().map_err(|_| io::Error::new(io::ErrorKind::InvalidData, "a key has 16 bytes"))?;
    let signer = Signer { own, key };
    let mut liar = Liar {
        net: Net::start(folder, N, &signer, None)?,
        own,
        protocol: crate::protocol(),
        replica: crate::open(own)?,
        signatures: Signatures::new(signer, u32::from(N), []),
        blocks: Blocks::default(),
        recent: Vec::new(),
        seen: Vec::new(),
        led: 0,
        random: Random::new(seed),
    };
    loop {
        match liar.net.events.recv_timeout(TICK) {
            Ok(Event::Frame { bytes, .. }) => liar.hear(&bytes),
            Ok(Event::Connected(_)) => {}
            Err(RecvTimeoutError::Timeout) => liar.idle(),
            Err(RecvTimeoutError::Disconnected) => return Ok(()),
        }
        liar.lead();
    }
}

impl Liar {
    // ------------------------------------------------------------ what it learns

    fn hear(&mut self, bytes: &[u8]) {
        let Some(frame) = Frame::decode(bytes) else { return };
        match &frame {
            Frame::Record { record, signatures, block } => {
                self.signatures.learn(card::statements(record, u32::from(N)), signatures);
                self.hold(block.clone());
                self.hand_in(record);
                self.remember(frame);
            }
            Frame::Ask { name, .. } => self.mislead(self.blocks.get(name).cloned()),
            Frame::Chain(_) => {}
        }
        if self.random.chance(5) {
            self.disturb();
        }
    }

    fn remember(&mut self, frame: Frame) {
        self.seen.push(frame);
        if self.seen.len() > SEEN {
            let forgotten = self.random.index(SEEN);
            self.seen.swap_remove(forgotten);
        }
    }

    /// Its own replica takes a block.
    fn hold(&mut self, block: Option<FullBlock>) {
        let Some(block) = block else { return };
        let Some(name) = block.name().filter(|name| !self.blocks.has(name)) else { return };
        self.hand_in(&block.record(self.own, name));
        self.blocks.learn(name, block.clone());
        self.recent.push(block);
        let over = self.recent.len().saturating_sub(RECENT);
        self.recent.drain(..over);
    }

    fn hand_in(&mut self, record: &[u8]) {
        let output = written(self.replica.record(record));
        self.retell(&output);
    }

    /// Clocks run out early.
    fn idle(&mut self) {
        if self.random.chance(2) {
            let output = written(self.replica.timer(self.replica.view()));
            self.retell(&output);
        }
        if self.random.chance(30) {
            self.disturb();
        }
    }

    // ------------------------------------------------------------ what it sends

    fn send(&self, to: u16, frame: &Frame) {
        self.send_bytes(to, frame.encode());
    }

    fn send_bytes(&self, to: u16, bytes: Vec<u8>) {
        self.net.send(to, &Arc::from(bytes));
    }

    fn others(&self) -> impl Iterator<Item = u16> {
        let own = self.own;
        (0..N).filter(move |to| *to != own)
    }

    fn another(&mut self) -> u16 {
        (self.own + self.random.between(1, u64::from(N) - 1) as u16) % N
    }

    /// A record with the signatures that it can give; the others are made up.
    fn frame(&mut self, record: Vec<u8>, block: Option<FullBlock>) -> Frame {
        let statements = card::statements(&record, u32::from(N));
        let mut signatures = Vec::new();
        for statement in &statements {
            signatures.push(self.signatures.find(statement).unwrap_or_else(|| made_up(&mut self.random)));
        }
        Frame::Record { record, signatures, block }
    }

    /// A vote or commit for any block.
    fn ballot(&mut self, kind: u16, view: View, block: &FullBlock) -> Frame {
        let vote = Vote { view, name: name_of(block) };
        let mut record = Vec::new();
        if kind == kind::VOTE {
            wire::write_vote(&mut record, self.own, vote);
        } else {
            wire::write_commit(&mut record, self.own, vote);
        }
        self.frame(record, (kind == kind::VOTE).then(|| block.clone()))
    }

    /// Its replica's output, told to each in another way.
    fn retell(&mut self, output: &[u8]) {
        for record in wire::records(output) {
            match wire::kind_of(record) {
                kind::VOTE | kind::COMMIT => self.retell_ballot(record),
                kind::TIMEOUT => self.retell_timeout(record),
                kind::RELEASE => {}
                _ => self.retell_to_some(record),
            }
        }
    }

    fn retell_to_some(&mut self, record: &[u8]) {
        let frame = self.frame(record.to_vec(), None);
        for to in self.others() {
            if self.random.chance(50) {
                self.send(to, &frame);
            }
        }
    }

    /// The vote, another one, both or none.
    fn retell_ballot(&mut self, record: &[u8]) {
        let Some(true_block) = self.blocks.get(&wire::name_at(record, 16)).cloned() else { return };
        let (kind, view) = (wire::kind_of(record), View(wire::u64_at(record, 8)));
        for to in self.others() {
            let other_block = self.any_block(&true_block);
            let ballots = [&true_block, &other_block].map(|block| self.ballot(kind, view, block));
            let chosen: &[usize] = self.random.pick(&[&[0][..], &[1], &[0, 1], &[1, 0], &[]]);
            for &ballot in chosen {
                self.send(to, &ballots[ballot]);
            }
        }
    }

    /// A block to lie about: a twin of the true one, or one of before.
    fn any_block(&mut self, block: &FullBlock) -> FullBlock {
        if self.recent.is_empty() || self.random.chance(50) {
            return twin(block);
        }
        self.any_recent()
    }

    /// One of those of before; there are some.
    fn any_recent(&mut self) -> FullBlock {
        self.recent[self.random.index(self.recent.len())].clone()
    }

    /// Timeouts with false high votes and other certificates.
    fn retell_timeout(&mut self, record: &[u8]) {
        let timeout = wire::read_timeout(record);
        for to in self.others() {
            if self.random.chance(25) {
                continue;
            }
            let high_vote = self.false_high_vote(timeout.view, timeout.high_vote);
            let forged = Certificate::block(timeout.view, high_vote.name, 0b111111);
            let certificate = self.random.weighted(&[(4, timeout.certificate), (4, Certificate::GENESIS), (2, forged)]);
            let lie = oracle::Timeout { high_vote, certificate, ..timeout };
            let frame = self.frame(wire::raw_timeout(&lie).to_vec(), None);
            self.send(to, &frame);
        }
    }

    fn false_high_vote(&mut self, view: View, true_vote: Vote) -> Vote {
        if self.recent.is_empty() {
            return true_vote;
        }
        let block = self.any_recent();
        let other = Vote { view, name: name_of(&block) };
        let twins = Vote { view, name: name_of(&twin(&block)) };
        self.random.pick(&[true_vote, Vote::NONE, other, twins])
    }

    // ------------------------------------------------------------ its own view

    /// In its view: two blocks, each shown to some, and votes for both; a block with a wrong parent; or nothing.
    fn lead(&mut self) {
        let view = View(self.replica.view().0);
        if self.replica.leader(self.replica.view()) != Some(self.own) || self.led >= view.0 {
            return;
        }
        self.led = view.0;
        let entry = entry_record(&self.replica);
        let parent = match wire::read_progress(&entry) {
            Progress::Block(certificate) => certificate.name,
            Progress::Timeouts(certificate) => self.protocol.safe_certificate(certificate.timeouts).name,
        };
        let Some(height) = self.blocks.height(&parent) else { return };
        let contents = [view.0, self.random.number()].map(u64::to_le_bytes).concat();
        let block = FullBlock { parent, height: height + 1, contents };
        match self.random.below(4) {
            0 => {}
            1 => self.propose(view, [FullBlock { parent: GENESIS, height: 1, ..block.clone() }, block], &entry),
            _ => self.propose(view, [twin(&block), block], &entry),
        }
    }

    fn propose(&mut self, view: View, blocks: [FullBlock; 2], entry: &[u8]) {
        let proposals = blocks.each_ref().map(|block| self.proposal(view, block, entry));
        let votes = blocks.each_ref().map(|block| self.ballot(kind::VOTE, view, block));
        for to in self.others() {
            let shown = self.random.index(2);
            let proposal = self.misnamed_at_times(&proposals[shown]);
            self.send(to, &proposal);
            self.send(to, &votes[shown]);
            self.send(to, &votes[1 - shown]);
        }
        blocks.into_iter().for_each(|block| self.hold(Some(block)));
    }

    fn proposal(&mut self, view: View, block: &FullBlock, entry: &[u8]) -> Frame {
        let mut record = Vec::new();
        let named = Block { name: name_of(block), parent: block.parent, height: Height(block.height) };
        wire::write_proposal(&mut record, self.own, view, &named, entry);
        self.frame(record, Some(block.clone()))
    }

    /// The frame as it is, with contents that its block's name isn't made of, or without any.
    fn misnamed_at_times(&mut self, frame: &Frame) -> Frame {
        let mut frame = frame.clone();
        if let Frame::Record { block, .. } = &mut frame {
            match self.random.below(6) {
                0 => *block = block.as_ref().map(twin),
                1 => *block = block.as_ref().map(too_long),
                2 => *block = None,
                _ => {}
            }
        }
        frame
    }

    // ------------------------------------------------------------ noise

    /// A wrong answer to one who asks for blocks.
    fn mislead(&mut self, block: Option<FullBlock>) {
        let Some(block) = block else { return };
        let to = self.another();
        let twin = twin(&block);
        self.send(to, &Frame::Chain(vec![block, twin]));
    }

    /// Something that no honest process sends.
    fn disturb(&mut self) {
        let to = self.another();
        let length = self.random.index(150);
        let noise: Vec<u8> = (0..length).map(|_| self.random.number() as u8).collect();
        let frame = match self.random.below(6) {
            0 => return self.send_bytes(to, [&(length as u32).to_le_bytes()[..], &noise].concat()),
            1 => Frame::Record { record: noise, signatures: Vec::new(), block: None },
            2 => self.headed_noise(noise),
            3 => self.damaged(),
            4 => self.forged(),
            _ => self.misnamed(),
        };
        self.send(to, &frame);
    }

    /// A record with a fitting length field, any kind and any content.
    fn headed_noise(&mut self, noise: Vec<u8>) -> Frame {
        let mut record = noise;
        record.resize(self.random.pick(&[8, 48, 56, 80, 112, 144]), 0);
        let length = record.len() as u32;
        record[..4].copy_from_slice(&length.to_le_bytes());
        record[4..6].copy_from_slice(&(self.random.below(13) as u16).to_le_bytes());
        record[6..8].copy_from_slice(&self.own.to_le_bytes());
        self.frame(record, None)
    }

    /// What another sent: as it was, or with a byte changed.
    fn damaged(&mut self) -> Frame {
        if self.seen.is_empty() {
            return Frame::Ask { above: 0, name: GENESIS };
        }
        let place = self.random.index(self.seen.len());
        let mut frame = self.seen[place].clone();
        if let Frame::Record { record, .. } = &mut frame {
            if self.random.chance(70) && !record.is_empty() {
                let at = self.random.index(record.len());
                record[at] ^= 1 << self.random.below(8);
            }
        }
        frame
    }

    /// A certificate of votes that nobody gave, with made up signatures.
    fn forged(&mut self) -> Frame {
        let name = self.recent.last().map_or([1; 32], |block| name_of(&twin(block)));
        let certificate = Certificate::block(View(self.replica.view().0), name, 0b111111);
        let mut record = Vec::new();
        wire::write_block_certificate(&mut record, self.own, &certificate);
        self.frame(record, None)
    }

    /// A vote with a block that hasn't its name: another height, other contents, or too many.
    fn misnamed(&mut self) -> Frame {
        let block = self.recent.last().map_or_else(first, twin);
        let mut frame = self.ballot(kind::VOTE, View(self.replica.view().0), &block);
        let higher = FullBlock { height: block.height + 1, ..block.clone() };
        let wrong = self.random.pick(&[0, 1, 2]);
        if let Frame::Record { block: shown, .. } = &mut frame {
            *shown = [higher, twin(&block), too_long(&block)].into_iter().nth(wrong);
        }
        frame
    }
}

fn first() -> FullBlock {
    FullBlock { parent: GENESIS, height: 1, contents: vec![1] }
}

/// The zero name where there is none: nobody takes that.
fn name_of(block: &FullBlock) -> Name {
    block.name().unwrap_or(GENESIS)
}

/// Another block with the same parent and height.
fn twin(block: &FullBlock) -> FullBlock {
    let mut contents = block.contents.clone();
    match contents.last_mut() {
        Some(byte) => *byte ^= 1,
        None => contents.push(1),
    }
    FullBlock { contents, ..*block }
}

/// The same with one byte of contents too many.
fn too_long(block: &FullBlock) -> FullBlock {
    let mut contents = block.contents.clone();
    contents.resize(raw::CONTENTS + 1, 0);
    FullBlock { contents, ..*block }
}

fn made_up(random: &mut Random) -> Signature {
    let halves = [random.number(), random.number()].map(u64::to_le_bytes);
    halves.concat().try_into().unwrap_or_default()
}

/// What its replica wrote; it is never resumed.
fn written(reply: Result<replica::Accepted<'_>, Refusal>) -> Vec<u8> {
    reply.map_or_else(|_| Vec::new(), |accepted| accepted.unsaved().bytes().to_vec())
}
