//! The claim of one chain over the rows of releases that processes left.

use std::fmt;

use oracle::{Name, GENESIS};
use replica::Replica;

use crate::contents::Blocks;
use crate::state::{Release, Saved};

/// What one process left.
pub struct Row {
    pub replica: u16,
    pub releases: Vec<Release>,
    pub blocks: Blocks,
    /// The blocks that the saved replica holds.
    pub held: Vec<Name>,
    /// The tip of the saved replica: its height and name.
    pub tip: (u64, [u8; 32]),
}

/// How the claim fails.
#[derive(Clone, Copy, Debug, PartialEq, Eq)]
pub enum Violation {
    /// Heights don't run 1, 2, 3 and on.
    Height { replica: u16, expected: u64 },
    /// A release's parent isn't the release before it (genesis for the first), or isn't known.
    Parent { replica: u16, height: u64 },
    /// The row doesn't end with the replica's tip.
    Tip { replica: u16 },
    /// The host hasn't kept the contents of a block that its replica holds.
    Contents { replica: u16 },
    /// Two rows differ at this height.
    TwoChains { replicas: [u16; 2], height: u64 },
    /// An honest replica signed two records of this kind for this view.
    SignedTwice { replica: u16, kind: u16, view: u64 },
    /// Others know a record of this kind and view that its honest signer hasn't saved.
    Unsaved { replica: u16, kind: u16, view: u64 },
}

impl fmt::Display for Violation {
    fn fmt(&self, f: &mut fmt::Formatter<'_>) -> fmt::Result {
        match self {
            Violation::Height { replica, expected } => write!(f, "row {replica} has no height {expected}"),
            Violation::Parent { replica, height } => write!(f, "row {replica}: wrong parent at height {height}"),
            Violation::Tip { replica } => write!(f, "row {replica} doesn't end with the tip"),
            Violation::Contents { replica } => write!(f, "replica {replica} holds a block whose contents are lost"),
            Violation::TwoChains { replicas: [one, other], height } => {
                write!(f, "two chains: rows {one} and {other} differ at height {height}")
            }
            Violation::SignedTwice { replica, kind, view } => {
                write!(f, "replica {replica} signed two records of kind {kind} for view {view}")
            }
            Violation::Unsaved { replica, kind, view } => {
                write!(f, "replica {replica} sent a record of kind {kind} for view {view} and hasn't saved it")
            }
        }
    }
}

impl std::error::Error for Violation {}

impl Row {
    /// The row in a state file; none where the replica in it can't be restored.
    pub fn of(replica: u16, saved: &Saved) -> Option<Row> {
        let restored = Replica::restore(&saved.replica).ok()?;
        let tip = (restored.tip().height.0, restored.tip().name.bytes);
        let held = restored.held().iter().map(|block| block.name.bytes).collect();
        let blocks = Blocks::new(saved.blocks.iter().cloned());
        Some(Row { replica, releases: saved.row.clone(), blocks, held, tip })
    }

    /// Heights, parents and the end of one row, and the contents of what is held above it.
    fn check(&self) -> Result<(), Violation> {
        let replica = self.replica;
        let mut before = GENESIS;
        for (expected, release) in (1..).zip(&self.releases) {
            if release.height != expected {
                return Err(Violation::Height { replica, expected });
            }
            // The name is the digest of this block, so the parent is its own.
            let block = self.blocks.get(&release.name);
            if block.is_none_or(|block| block.parent != before || block.height != expected) {
                return Err(Violation::Parent { replica, height: expected });
            }
            before = release.name;
        }
        if self.tip != (self.releases.len() as u64, before) {
            return Err(Violation::Tip { replica });
        }
        if !self.held.iter().all(|name| self.blocks.has(name)) {
            return Err(Violation::Contents { replica });
        }
        Ok(())
    }

    /// The shorter of two rows is the beginning of the longer.
    fn compare(&self, other: &Row) -> Result<(), Violation> {
        let differs = self.releases.iter().zip(&other.releases).find(|(one, other)| one.name != other.name);
        let replicas = [self.replica, other.replica];
        differs.map_or(Ok(()), |(release, _)| Err(Violation::TwoChains { replicas, height: release.height }))
    }
}

pub fn check(rows: &[Row]) -> Result<(), Violation> {
    for (place, row) in rows.iter().enumerate() {
        row.check()?;
        rows[..place].iter().try_for_each(|other| row.compare(other))?;
    }
    Ok(())
}

#[cfg(test)]
mod tests {
    use super::*;
    use crate::contents::FullBlock;

    /// A row of blocks with these contents, a byte each.
    fn row(replica: u16, contents: &[u8]) -> Row {
        let (releases, blocks) = (Vec::new(), Blocks::default());
        let mut row = Row { replica, releases, blocks, held: Vec::new(), tip: (0, GENESIS) };
        for (height, byte) in (1..).zip(contents) {
            let block = FullBlock { parent: row.tip.1, height, contents: vec![*byte] };
            let name = block.name().expect("a name");
            row.blocks.learn(name, block);
            row.releases.push(Release { view: height, name, height });
            row.tip = (height, name);
        }
        row
    }

    #[test]
    fn one_chain() {
        assert_eq!(check(&[row(0, &[1, 2, 3]), row(1, &[1]), row(2, &[]), row(3, &[1, 2, 3])]), Ok(()));
    }

    #[test]
    fn two_chains() {
        let found = check(&[row(0, &[1, 2, 3]), row(1, &[1]), row(2, &[1, 4])]);
        assert_eq!(found, Err(Violation::TwoChains { replicas: [2, 0], height: 2 }));
    }

    #[test]
    fn a_release_left_out() {
        let mut left_out = row(0, &[1, 2, 3]);
        left_out.releases.remove(1);
        assert_eq!(check(&[left_out]), Err(Violation::Height { replica: 0, expected: 2 }));
    }

    #[test]
    fn a_release_twice() {
        let mut twice = row(0, &[1, 2]);
        twice.releases.push(twice.releases[1]);
        assert_eq!(check(&[twice]), Err(Violation::Height { replica: 0, expected: 3 }));
    }

    #[test]
    fn a_wrong_parent() {
        let (mut mixed, other) = (row(0, &[1, 2]), row(0, &[3, 2]));
        mixed.releases[0] = other.releases[0];
        mixed.blocks.0.extend(other.blocks.0);
        assert_eq!(check(&[mixed]), Err(Violation::Parent { replica: 0, height: 2 }));
    }

    #[test]
    fn a_release_lost_at_the_end() {
        let mut lost = row(0, &[1, 2]);
        lost.releases.pop();
        assert_eq!(check(&[lost]), Err(Violation::Tip { replica: 0 }));
    }

    #[test]
    fn contents_of_a_held_block_lost() {
        let mut lost = row(0, &[1, 2]);
        lost.held.push([7; 32]);
        assert_eq!(check(&[lost]), Err(Violation::Contents { replica: 0 }));
    }
}
