//! How the blocks of a run get their names: invented ones, or made from contents, with which every block then comes.
//! Contents are tampered with on the way, and a name is given to another block: that is refused, and no premise is asked.

use std::collections::HashMap;
use std::rc::Rc;

use oracle::{wire, Block, Height, Name};
use replica::raw;

use crate::adversary::Adversary;
use crate::cluster::{Cluster, Outcome};
use crate::core::Core;
use crate::coverage::Row;
use crate::random::Random;

/// Of a thousand records without a block so many come with contents.
const BESIDE: u32 = 15;
/// Of a thousand own proposals so many are first made by a wrong name.
const MISNAMED: u32 = 30;
/// How many contents are tried for a small name.
const TRIES: usize = 8;

pub enum Naming {
    Invented,
    /// By contents; those of the names that were made here.
    ByContents(HashMap<Name, Rc<[u8]>>),
}

impl Naming {
    pub fn by_contents() -> Naming {
        Naming::ByContents(HashMap::new())
    }

    pub fn is_by_contents(&self) -> bool {
        matches!(self, Naming::ByContents(_))
    }

    pub fn contents(&self, name: &Name) -> Option<Rc<[u8]>> {
        match self {
            Naming::Invented => None,
            Naming::ByContents(book) => book.get(name).cloned(),
        }
    }

    /// A name for a block on this parent.
    pub fn name(&mut self, parent: Name, height: Height, random: &mut Random) -> Name {
        match self {
            Naming::Invented => random.name(),
            Naming::ByContents(book) => {
                let contents = draw(random);
                let name = made(parent, height, &contents);
                book.insert(name, contents);
                name
            }
        }
    }

    /// A smaller one, or this one: who makes names from contents has to search.
    pub fn smaller(&mut self, mut name: Name, parent: Name, height: Height, random: &mut Random) -> Name {
        match self {
            Naming::Invented => name[0] = 0,
            Naming::ByContents(_) => {
                let others: Vec<Name> = (1..TRIES).map(|_| self.name(parent, height, random)).collect();
                name = others.into_iter().fold(name, Name::min);
            }
        }
        name
    }
}

/// The library's name of a block.
fn made(parent: Name, height: Height, contents: &[u8]) -> Name {
    let parent = replica::Name { bytes: parent };
    replica::block_name(parent, replica::Height(height.0), contents).expect("contents that aren't too long").bytes
}

/// Mostly short, now and then none or the most that there may be.
fn draw(random: &mut Random) -> Rc<[u8]> {
    let length = match random.below(200) {
        0 => raw::CONTENTS,
        1..=3 => 0,
        other => 8 + other % 60,
    };
    bytes(length, random)
}

/// So many bytes, the first eight of them drawn.
fn bytes(length: usize, random: &mut Random) -> Rc<[u8]> {
    let mut contents = vec![0; length];
    let number = random.number().to_le_bytes();
    contents.iter_mut().zip(number).for_each(|(byte, drawn)| *byte = drawn);
    Rc::from(contents)
}

// ------------------------------------------------------------ calls

/// What an honest leader proposes.
pub enum Own {
    Name(Name),
    Contents(Rc<[u8]>),
}

impl Own {
    pub fn draw<C: Core>(cluster: &Cluster<C>, random: &mut Random) -> Own {
        if cluster.is_checked() {
            Own::Contents(draw(random))
        } else {
            Own::Name(random.name())
        }
    }

    /// With contents, now and then by a name that isn't made of them first, which is refused.
    pub fn propose<C: Core>(&self, cluster: &mut Cluster<C>, leader: usize, random: &mut Random) -> Outcome {
        match self {
            Own::Name(name) => cluster.propose(leader, *name),
            Own::Contents(contents) => {
                if random.chance(MISNAMED) {
                    cluster.propose_with(leader, random.name(), contents);
                }
                cluster.propose_contents(leader, contents)
            }
        }
    }
}

/// Proposes by a name that isn't right, in a run with contents with any of them.
pub fn propose_oddly<C: Core>(cluster: &mut Cluster<C>, leader: usize, name: Name, random: &mut Random) -> Outcome {
    if !cluster.is_checked() {
        return cluster.propose(leader, name);
    }
    let contents = if random.chance(200) { too_long(cluster, random) } else { draw(random) };
    cluster.propose_with(leader, name, &contents)
}

/// Hands a record in. In a run with contents a block comes with its own or, now and then, with others; and so do, now and
/// then, records that bring none.
pub fn hand_in<C: Core>(
    cluster: &mut Cluster<C>,
    adversary: &mut Adversary,
    random: &mut Random,
    to: usize,
    record: &[u8],
) -> Outcome {
    let contents = match wire::block_of(record) {
        _ if !cluster.is_checked() => None,
        Some(block) => {
            let own = cluster.contents(&block.name).or_else(|| adversary.naming().contents(&block.name));
            note_taken(cluster, &block, own.is_some());
            Some(tampered(cluster, own.unwrap_or_default(), random))
        }
        None if random.chance(BESIDE) => Some(beside(cluster, random)),
        None => None,
    };
    match contents {
        Some(contents) => cluster.record_with(to, record, &contents),
        None => cluster.record(to, record),
    }
}

/// A block's own contents, or others.
fn tampered<C: Core>(cluster: &mut Cluster<C>, own: Rc<[u8]>, random: &mut Random) -> Rc<[u8]> {
    match random.below(100) {
        0..=2 => {
            cluster.coverage.add(Row::OtherContents, 1);
            draw(random)
        }
        3 if !own.is_empty() => {
            cluster.coverage.add(Row::NoBytes, 1);
            Rc::default()
        }
        4 => too_long(cluster, random),
        _ => own,
    }
}

fn too_long<C: Core>(cluster: &mut Cluster<C>, random: &mut Random) -> Rc<[u8]> {
    cluster.coverage.add(Row::LongContents, 1);
    bytes(raw::CONTENTS + 1, random)
}

fn beside<C: Core>(cluster: &mut Cluster<C>, random: &mut Random) -> Rc<[u8]> {
    cluster.coverage.add(Row::ContentsBeside, 1);
    if random.chance(100) {
        too_long(cluster, random)
    } else {
        draw(random)
    }
}

/// A name that the run has given another parent or height, with the contents that it was made of.
fn note_taken<C: Core>(cluster: &mut Cluster<C>, block: &Block, has_contents: bool) {
    let is_taken = has_contents && !cluster.ledger().permits_block(block);
    cluster.coverage.add(Row::TakenName, u64::from(is_taken));
}
