//! Contents that are no longer than they may be, beside a call that brings a block: 02, 2.5 says the answer by what the call
//! answers without them, and by whether they are the block's.

use oracle::{answer, block_name, wire, Block, Replica, CONTENTS};

use crate::call::Call;
use crate::coverage::{Kind, REACHABLE};

#[derive(Clone, Copy, Debug, PartialEq, Eq, PartialOrd, Ord)]
pub struct ContentsCase {
    pub kind: Kind,
    /// Whether the name is the digest.
    pub right: bool,
    /// The answer without contents.
    pub plain: u16,
}

impl ContentsCase {
    /// None for a call without a block or contents, and where 2 or 16 comes first.
    pub fn of(replica: &Replica, call: &Call) -> Option<ContentsCase> {
        let contents = call.contents().filter(|contents| contents.len() <= CONTENTS && replica.is_sound())?;
        let block = match call {
            Call::ProposeWith(name, _) => replica.proposed(*name),
            _ => Some(wire::block_of(call.record()?)?),
        };
        let plain = answer(call.without_contents().make(&mut replica.clone(), &mut Vec::new()));
        let right = block.is_some_and(|block| is_named(&block, contents));
        Some(ContentsCase { kind: Kind::of(call), right, plain })
    }

    /// 02: 17 "right before 10 (propose: before 14)".
    pub fn answer(self) -> u16 {
        let later: &[u16] = if self.kind == Kind::Propose { &[0, 14] } else { &[0, 10, 11, 12, 13, 14] };
        if !self.right && later.contains(&self.plain) {
            17
        } else {
            self.plain
        }
    }

    /// All that streams from an opening can come upon. A block record and propose are refused by 5 for a zero name alone,
    /// which is no digest that anyone knows contents for; and where propose answers 12 there is no block to check.
    pub fn reachable() -> Vec<ContentsCase> {
        let kinds = REACHABLE.into_iter().filter(|(kind, _)| kind.brings_block());
        let all = kinds.flat_map(|(kind, answers)| answers.iter().map(move |&plain| (kind, plain)));
        let both = all.flat_map(|(kind, plain)| [true, false].map(|right| ContentsCase { kind, right, plain }));
        both.filter(|case| !case.right || !case.is_never_right()).collect()
    }

    fn is_never_right(self) -> bool {
        matches!((self.kind, self.plain), (Kind::Block, 5) | (Kind::Propose, 5 | 12))
    }
}

fn is_named(block: &Block, contents: &[u8]) -> bool {
    block_name(block.parent, block.height, contents) == Ok(block.name)
}
