//! The store of blocks beside the tip.

use crate::types::{Block, Height, Name};

/// 01: "The store of blocks .. holds 128 beside the tip." In order of arrival; entries from `len` on mean nothing.
#[derive(Clone, Debug)]
pub struct Store {
    len: usize,
    blocks: [Block; Store::ROOM],
}

/// Where a name is held.
#[derive(Clone, Copy, Debug, PartialEq, Eq)]
pub enum Place {
    Tip,
    Entry(usize),
}

/// Entries from a block down to the tip's child.
#[derive(Clone, Copy, Debug)]
pub struct Path {
    len: usize,
    entries: [u8; Store::ROOM],
}

impl Path {
    /// The entries from the tip's child up.
    pub fn upward(&self) -> impl Iterator<Item = usize> + '_ {
        self.entries[..self.len].iter().rev().map(|&entry| usize::from(entry))
    }
}

impl Store {
    pub const ROOM: usize = 128;

    pub(crate) const EMPTY: Store = Store { len: 0, blocks: [Block::GENESIS; Store::ROOM] };

    /// So many held entries, and what stands behind them; none if that is more than the store has.
    pub fn of(len: usize, blocks: [Block; Self::ROOM]) -> Option<Store> {
        (len <= Self::ROOM).then_some(Store { len, blocks })
    }

    /// All entries, those left over behind the held ones included.
    pub fn entries(&self) -> &[Block; Self::ROOM] {
        &self.blocks
    }

    pub fn blocks(&self) -> &[Block] {
        &self.blocks[..self.len]
    }

    pub fn is_empty(&self) -> bool {
        self.len == 0
    }

    pub fn is_full(&self) -> bool {
        self.len == Self::ROOM
    }

    /// Adds a block; false, and nothing added, if the store is full.
    pub fn push(&mut self, block: Block) -> bool {
        let free = !self.is_full();
        if free {
            self.blocks[self.len] = block;
            self.len += 1;
        }
        free
    }

    pub fn clear(&mut self) {
        self.len = 0;
    }

    /// Looks a name up: tip first ("The tip is held."), then first entry.
    pub fn find(&self, tip: &Block, name: &Name) -> Option<Place> {
        if tip.name == *name {
            return Some(Place::Tip);
        }
        self.blocks().iter().position(|block| block.name == *name).map(Place::Entry)
    }

    pub fn get(&self, tip: &Block, name: &Name) -> Option<Block> {
        self.find(tip, name).map(|place| match place {
            Place::Tip => *tip,
            Place::Entry(entry) => self.blocks[entry],
        })
    }

    /// One step of the walk from parent to parent: the parent's place if its height is below the child's.
    fn parent(&self, tip: &Block, child: &Block) -> Option<Place> {
        let place = self.find(tip, &child.parent)?;
        (self.height(tip, place) < child.height).then_some(place)
    }

    fn height(&self, tip: &Block, place: Place) -> Height {
        match place {
            Place::Tip => tip.height,
            Place::Entry(entry) => self.blocks[entry].height,
        }
    }

    /// 01: "the box walks from parent to parent down to the released tip". None if the walk ends elsewhere. Heights
    /// fall, so no entry comes twice.
    pub fn walk(&self, tip: &Block, from: usize) -> Option<Path> {
        let mut path = Path { len: 0, entries: [0; Self::ROOM] };
        let mut entry = from;
        loop {
            path.entries[path.len] = entry as u8;
            path.len += 1;
            match self.parent(tip, &self.blocks[entry])? {
                Place::Tip => return Some(path),
                Place::Entry(parent) => entry = parent,
            }
        }
    }

    /// 01: "drops every block that doesn't descend from it", the tip's own entry among them.
    pub fn keep_descendants(&mut self, tip: &Block) {
        let descends = self.descendants(tip);
        let mut kept = 0;
        for (entry, descends) in descends.into_iter().enumerate() {
            if descends == Some(true) {
                self.blocks[kept] = self.blocks[entry];
                kept += 1;
            }
        }
        self.len = kept;
    }

    fn descendants(&self, tip: &Block) -> [Option<bool>; Self::ROOM] {
        let mut known = [None; Self::ROOM];
        for entry in 0..self.len {
            self.descends(tip, entry, &mut known);
        }
        known
    }

    /// Whether the walk from an entry ends at the tip, remembered for the whole way.
    fn descends(&self, tip: &Block, entry: usize, known: &mut [Option<bool>; Self::ROOM]) -> bool {
        if let Some(answer) = known[entry] {
            return answer;
        }
        let answer = match self.parent(tip, &self.blocks[entry]) {
            None => false,
            Some(Place::Tip) => true,
            Some(Place::Entry(parent)) => self.descends(tip, parent, known),
        };
        known[entry] = Some(answer);
        answer
    }
}

/// Entries beyond the held ones don't count.
impl PartialEq for Store {
    fn eq(&self, other: &Store) -> bool {
        self.blocks() == other.blocks()
    }
}

impl Eq for Store {}
