//! Wrong readings of what 02, 2.5 says of contents, there to be noticed. Each judges contents by what the call answers without
//! them; if it doesn't refuse, the call is made without them.

use crate::judge::Judged;
use crate::name::{block_name, CONTENTS};
use crate::replica::Replica;
use crate::types::{Block, Height, Name, Refusal};
use crate::wire::{self, Record};

#[derive(Clone, Copy, Debug, PartialEq, Eq)]
pub enum Misreading {
    /// 4,097 bytes are taken; the last one isn't digested.
    OneByteMore,
    /// Empty contents are as none.
    EmptyIsAbsent,
    /// 16 comes after 3, in propose after 15.
    LengthLater,
    /// 17 comes before 6, in propose before 11.
    NameEarlier,
    /// 17 comes after 10.
    NameAfterRepeated,
    /// 17 comes after 14, in propose too.
    NameLast,
    /// Of name and digest the last byte isn't compared.
    LastByteLeftOut,
    /// Beside a kind without a block contents are never right.
    BesideAnyKind,
    /// A proposal is checked with its safe block and that one's height plus 1.
    ProposalOnSafeBlock,
    /// Propose is checked with the tip and its height plus 1.
    ProposeOnTip,
    /// Propose is checked with the safe block and its height.
    ProposeAtSafeHeight,
}

/// What contents came with.
#[derive(Clone, Copy, Debug)]
pub(crate) enum Beside<'a> {
    Record(&'a [u8]),
    Propose(Name),
}

impl Misreading {
    pub const ALL: [Misreading; 11] = [
        Misreading::OneByteMore,
        Misreading::EmptyIsAbsent,
        Misreading::LengthLater,
        Misreading::NameEarlier,
        Misreading::NameAfterRepeated,
        Misreading::NameLast,
        Misreading::LastByteLeftOut,
        Misreading::BesideAnyKind,
        Misreading::ProposalOnSafeBlock,
        Misreading::ProposeOnTip,
        Misreading::ProposeAtSafeHeight,
    ];

    /// 16 or 17 as this reading gives them, or the refusal that stands before.
    pub(crate) fn judge(self, replica: &Replica, beside: Beside<'_>, contents: &[u8]) -> Judged {
        let plain = beside.judge_plain(replica);
        match plain {
            Err(refusal) if self.stands_before_length(refusal) => Err(refusal),
            _ if contents.len() > self.longest() => Err(Refusal::ContentsTooLong),
            Err(refusal) if self.stands_before_name(beside, refusal) => Err(refusal),
            _ if !self.fits(replica, beside, contents) => Err(Refusal::NameWrong),
            _ => plain,
        }
    }

    fn longest(self) -> usize {
        CONTENTS + usize::from(self == Misreading::OneByteMore)
    }

    fn stands_before_length(self, refusal: Refusal) -> bool {
        refusal == Refusal::Regions
            || self == Misreading::LengthLater && matches!(refusal, Refusal::Length | Refusal::Turn)
    }

    fn stands_before_name(self, beside: Beside<'_>, refusal: Refusal) -> bool {
        match (self, beside) {
            (Misreading::NameEarlier, Beside::Record(_)) => refusal < Refusal::Party,
            (Misreading::NameEarlier, Beside::Propose(_)) => matches!(refusal, Refusal::Turn | Refusal::Content),
            (Misreading::NameAfterRepeated, Beside::Record(_)) => refusal <= Refusal::Repeated,
            (Misreading::NameLast, _) => true,
            (_, Beside::Record(_)) => refusal < Refusal::Repeated,
            (_, Beside::Propose(_)) => refusal != Refusal::StoreFull,
        }
    }

    /// Whether the contents are taken for the block's, if there is one.
    fn fits(self, replica: &Replica, beside: Beside<'_>, contents: &[u8]) -> bool {
        let Some(block) = beside.block(replica) else { return self != Misreading::BesideAnyKind };
        let Block { name, parent, height } = self.checked(replica, beside, block);
        let contents = &contents[..contents.len().min(CONTENTS)];
        let digest = block_name(parent, height, contents).expect("at most 4,096 bytes");
        match self {
            Misreading::EmptyIsAbsent if contents.is_empty() => true,
            Misreading::LastByteLeftOut => digest[..31] == name[..31],
            _ => digest == name,
        }
    }

    /// The block with the parent and height that are digested.
    fn checked(self, replica: &Replica, beside: Beside<'_>, block: Block) -> Block {
        let child_of =
            |parent: Block| Block { parent: parent.name, height: Height(parent.height.0.wrapping_add(1)), ..block };
        match (self, beside) {
            (Misreading::ProposalOnSafeBlock, Beside::Record(bytes)) => {
                safe_block(replica, bytes).map_or(block, child_of)
            }
            (Misreading::ProposeOnTip, Beside::Propose(_)) => child_of(replica.counters.tip),
            (Misreading::ProposeAtSafeHeight, Beside::Propose(_)) => {
                Block { height: Height(block.height.0 - 1), ..block }
            }
            _ => block,
        }
    }
}

/// The held safe block of a proposal.
fn safe_block(replica: &Replica, bytes: &[u8]) -> Option<Block> {
    match wire::read(bytes, replica.settings().n()) {
        Ok(Record::Proposal(proposal)) => replica.held(&replica.safe_of(&proposal.progress).name),
        _ => None,
    }
}

impl Beside<'_> {
    /// As if no contents had come.
    fn judge_plain(self, replica: &Replica) -> Judged {
        let mut replica = replica.clone();
        match self {
            Beside::Record(bytes) => replica.record_event(bytes, None, &mut Vec::new()),
            Beside::Propose(name) => replica.propose_event(name, None, &mut Vec::new()),
        }
    }

    /// The block that 02 checks.
    fn block(self, replica: &Replica) -> Option<Block> {
        match self {
            Beside::Record(bytes) => wire::block_of(bytes),
            Beside::Propose(name) => replica.proposed(name),
        }
    }
}
