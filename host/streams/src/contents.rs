//! Contents for the calls of a stream: new blocks are named by theirs, and calls come with right ones, wrong ones or none.

use std::collections::HashMap;

use oracle::{wire, Block, Height, Name, Replica, CONTENTS, GENESIS};

use crate::call::Call;
use crate::name::NameCall;
use crate::random::Random;

/// Gives contents to calls, and knows those that it named a block by.
#[derive(Clone, Debug)]
pub struct Contents {
    random: Random,
    /// What each of these names was made from.
    named: HashMap<Name, NameCall>,
    /// How many in a hundred new blocks are named by their contents.
    share: u64,
}

/// Which contents a call gets.
#[derive(Clone, Copy)]
enum Choice {
    Absent,
    /// Those that the name was made from; absent if it was made from none.
    Known,
    Changed,
    Any,
    TooLong,
}

impl Contents {
    pub fn new(seed: u64) -> Contents {
        let mut random = Random::new(seed ^ 0x0063_6F6E_7465_6E74);
        let share = random.pick(&[50, 80, 95]);
        Contents { random, named: HashMap::new(), share }
    }

    /// The call with contents or without, as it comes.
    pub fn join(&mut self, call: Call, replica: &Replica) -> Call {
        match call {
            Call::Record(record) => match wire::block_of(&record) {
                Some(block) => self.join_block(record, block, replica),
                None if self.random.chance(15) => Call::RecordWith(record, self.any()),
                None => Call::Record(record),
            },
            Call::Propose(name) => self.join_propose(name, replica),
            other => other,
        }
    }

    /// A proposal or a block record.
    fn join_block(&mut self, mut record: Vec<u8>, mut block: Block, replica: &Replica) -> Call {
        let voted = replica.counters.high_vote.name;
        let is_new = block.name != voted && is_fresh(block.name, replica);
        let misnamed = if self.random.chance(5) { self.misnamed(replica) } else { None };
        if let Some(made) = misnamed {
            block = made;
        } else if is_new && self.random.chance(self.share) {
            block.name = self.name_near(block.parent, block.height);
        } else if !is_new && self.random.chance(70) {
            block = self.made(block.name).unwrap_or(block);
        }
        put_block(&mut record, &block);
        self.choose(Call::Record(record), block.name)
    }

    fn join_propose(&mut self, mut name: Name, replica: &Replica) -> Call {
        if let Some(block) = replica.proposed(name).filter(|_| is_fresh(name, replica)) {
            let held = if self.random.chance(10) { self.held_digest(&block, replica) } else { None };
            if let Some(held) = held {
                name = held;
            } else if self.random.chance(self.share) {
                name = self.proposed_name(&block, replica);
            }
        }
        self.choose(Call::Propose(name), name)
    }

    /// A held block's name that was made for the parent and height of this one.
    fn held_digest(&self, block: &Block, replica: &Replica) -> Option<Name> {
        let mut held = replica.memory.store.blocks().iter().map(|held| held.name);
        held.find(|&name| self.made(name) == Some(Block { name, ..*block }))
    }

    /// What the name of a held block was made for, where that is another block.
    fn misnamed(&self, replica: &Replica) -> Option<Block> {
        let mut held = replica.memory.store.blocks().iter();
        held.find_map(|held| self.made(held.name).filter(|made| made != held))
    }

    /// For the block that is proposed; at times for one on the tip, or of the height below.
    fn proposed_name(&mut self, block: &Block, replica: &Replica) -> Name {
        let tip = replica.counters.tip;
        match self.random.below(20) {
            0 => self.name(tip.name, Height(tip.height.0.wrapping_add(1))),
            1 => self.name(block.parent, Height(block.height.0 - 1)),
            _ => self.name_near(block.parent, block.height),
        }
    }

    /// A name for this parent and height, at times for another of them, or with a bit changed.
    fn name_near(&mut self, parent: Name, height: Height) -> Name {
        match self.random.below(25) {
            0 => self.name(GENESIS, height),
            1 => self.name(parent, Height(height.0.wrapping_add(1))),
            2 => {
                let name = self.name(parent, height);
                self.nearly(name)
            }
            _ => self.name(parent, height),
        }
    }

    /// One bit of a name is changed, and its contents go with it.
    fn nearly(&mut self, mut name: Name) -> Name {
        let made = self.named.remove(&name).expect("a name made from contents");
        name[self.random.index(32)] ^= 1 << self.random.below(8);
        self.named.insert(name, made);
        name
    }

    /// A name made from new contents.
    fn name(&mut self, parent: Name, height: Height) -> Name {
        let contents = self.contents();
        let call = NameCall { parent, height, contents };
        let name = call.make().expect("at most 4,096 bytes");
        self.named.insert(name, call);
        name
    }

    /// The block that a name was made for.
    fn made(&self, name: Name) -> Option<Block> {
        self.named.get(&name).map(|call| Block { name, parent: call.parent, height: call.height })
    }

    /// The call with contents for this name, or without.
    fn choose(&mut self, call: Call, name: Name) -> Call {
        let choice = self.random.weighted(&[
            (30, Choice::Absent),
            (45, Choice::Known),
            (15, Choice::Changed),
            (5, Choice::Any),
            (5, Choice::TooLong),
        ]);
        let known = self.named.get(&name).map(|named| named.contents.clone());
        match (choice, known) {
            (Choice::Absent, _) | (Choice::Known, None) => call,
            (Choice::Known, Some(known)) => call.with(known),
            (Choice::Changed, Some(known)) => call.with(self.changed(known)),
            (Choice::Changed, None) | (Choice::Any, _) => call.with(self.contents()),
            (Choice::TooLong, _) => call.with(self.too_long()),
        }
    }

    /// Contents of no block.
    fn any(&mut self) -> Vec<u8> {
        if self.random.chance(10) {
            self.too_long()
        } else {
            self.contents()
        }
    }

    /// Of any length that is taken; those at which the digest's padding changes come often, and so do the longest.
    fn contents(&mut self) -> Vec<u8> {
        let near_padding = self.random.pick(&[15, 16, 23, 24, 79, 80]);
        let [small, middle, any] = [40, 400, CONTENTS + 1].map(|end| self.random.index(end));
        let longest = self.random.pick(&[CONTENTS - 1, CONTENTS]);
        let lengths = [(2, 0), (6, near_padding), (4, small), (2, middle), (1, any), (2, longest)];
        let length = self.random.weighted(&lengths);
        self.random.bytes(length)
    }

    /// One bit, one byte more or fewer, or nothing.
    fn changed(&mut self, mut contents: Vec<u8>) -> Vec<u8> {
        match self.random.below(5) {
            0 => contents.clear(),
            1 if contents.len() < CONTENTS => contents.push(self.random.pick(&[0, 0x80])),
            2 if !contents.is_empty() => contents.truncate(contents.len() - 1),
            _ if contents.is_empty() => contents = self.contents(),
            _ => {
                let at = self.random.index(contents.len());
                contents[at] ^= 1 << self.random.below(8);
            }
        }
        contents
    }

    fn too_long(&mut self) -> Vec<u8> {
        let more = [CONTENTS + 1, CONTENTS + 1, CONTENTS + 1, CONTENTS + 2, 4_136, 4_200, 8_192, 1 << 16, 70_000];
        let length = self.random.pick(&more);
        vec![self.random.number() as u8; length]
    }
}

/// Whether a block of this name isn't held, and may come.
fn is_fresh(name: Name, replica: &Replica) -> bool {
    name != GENESIS && replica.held(&name).is_none()
}

/// Writes the block of a proposal or a block record.
fn put_block(record: &mut [u8], block: &Block) {
    let at = wire::block_place(record).expect("a record with a block");
    let fields = [&block.name[..], &block.parent, &block.height.0.to_le_bytes()].concat();
    record[at..at + fields.len()].copy_from_slice(&fields);
}
