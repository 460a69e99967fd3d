//! Blocks with what they hold. The library makes their names: hosts have no hash of their own.

use std::collections::{HashMap, HashSet};

use oracle::{wire, Block, Height, Name, GENESIS};

use crate::codec::{Reader, Writer};

/// A block with its contents, as hosts hand it on. Its name is a digest of all three, so a name has one parent and one
/// height.
#[derive(Clone, Debug, PartialEq, Eq, Hash)]
pub struct FullBlock {
    pub parent: Name,
    pub height: u64,
    pub contents: Vec<u8>,
}

impl FullBlock {
    /// None where the contents are too long.
    pub fn name(&self) -> Option<Name> {
        let parent = replica::Name { bytes: self.parent };
        replica::block_name(parent, replica::Height(self.height), &self.contents).ok().map(|name| name.bytes)
    }

    /// As a record of kind 8, by this name: whether it is the right one is for the replica to say.
    pub fn record(&self, sender: u16, name: Name) -> Vec<u8> {
        let mut record = Vec::new();
        let block = Block { name, parent: self.parent, height: Height(self.height) };
        wire::write_block(&mut record, sender, &block);
        record
    }

    pub fn write(&self, out: &mut Writer) {
        out.fixed(&self.parent).number(self.height).bytes(&self.contents);
    }

    pub fn read(bytes: &mut Reader<'_>) -> Option<FullBlock> {
        Some(FullBlock { parent: bytes.fixed()?, height: bytes.number()?, contents: bytes.bytes()?.to_vec() })
    }
}

/// Blocks from the highest down with their names; none where one isn't the parent of the one before.
pub fn linked(chain: Vec<FullBlock>) -> Option<Vec<(Name, FullBlock)>> {
    let names: Vec<Name> = chain.iter().map(FullBlock::name).collect::<Option<_>>()?;
    let is_linked = chain.iter().zip(names.iter().skip(1)).all(|(block, below)| block.parent == *below);
    is_linked.then(|| names.into_iter().zip(chain).collect())
}

/// The blocks that a host's replica took, by name. Of those that it holds the host keeps the contents, since others may
/// ask for them; of released ones too, since a replica that comes late needs them.
#[derive(Default)]
pub struct Blocks(pub HashMap<Name, FullBlock>);

impl Blocks {
    pub fn new(all: impl IntoIterator<Item = FullBlock>) -> Blocks {
        Blocks(all.into_iter().filter_map(|block| Some((block.name()?, block))).collect())
    }

    pub fn learn(&mut self, name: Name, block: FullBlock) {
        self.0.insert(name, block);
    }

    pub fn get(&self, name: &Name) -> Option<&FullBlock> {
        self.0.get(name)
    }

    pub fn has(&self, name: &Name) -> bool {
        *name == GENESIS || self.0.contains_key(name)
    }

    /// A block's height, 0 for genesis.
    pub fn height(&self, name: &Name) -> Option<u64> {
        if *name == GENESIS {
            return Some(0);
        }
        self.get(name).map(|block| block.height)
    }

    /// From this block down to above a height, at most `most` of them.
    pub fn chain(&self, top: &Name, above: u64, most: usize) -> Vec<FullBlock> {
        let below = std::iter::successors(self.get(top), |block| self.get(&block.parent));
        below.take_while(|block| block.height > above).take(most).cloned().collect()
    }

    /// Forgets all but these.
    pub fn retain(&mut self, kept: &HashSet<Name>) {
        self.0.retain(|name, _| kept.contains(name));
    }
}

#[cfg(test)]
mod tests {
    use super::*;

    fn block(parent: Name, height: u64, contents: &[u8]) -> FullBlock {
        FullBlock { parent, height, contents: contents.to_vec() }
    }

    /// Three blocks, the highest first.
    fn chain() -> Vec<FullBlock> {
        let mut parent = GENESIS;
        let mut chain = Vec::new();
        for (height, contents) in (1..).zip([&b""[..], b"title 7 issued", b"title 7 passed on"]) {
            chain.insert(0, block(parent, height, contents));
            parent = chain[0].name().expect("a name");
        }
        chain
    }

    #[test]
    fn a_chain_is_linked_by_names() {
        let named = linked(chain()).expect("a chain");
        assert!(named.iter().zip(&named[1..]).all(|((_, block), (below, _))| block.parent == *below));
        for place in 1..3 {
            let mut wrong = chain();
            wrong[place].contents.push(0);
            assert_eq!(linked(wrong), None);
        }
        assert_eq!(linked(vec![block(GENESIS, 1, &[0; 4_097])]), None);
    }

    #[test]
    fn blocks_are_handed_out_until_they_are_forgotten() {
        let all = linked(chain()).expect("a chain");
        let mut blocks = Blocks::new(chain());
        assert_eq!(blocks.chain(&all[0].0, 1, 9), chain()[..2]);
        blocks.retain(&HashSet::from([all[2].0, all[1].0]));
        assert!(blocks.chain(&all[0].0, 0, 9).is_empty());
        assert_eq!(blocks.chain(&all[1].0, 0, 9), chain()[1..]);
    }
}
