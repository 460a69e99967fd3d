//! Refusals 6 to 15 in 01's order, and 16 and 17 at 02's places; 3, 4 and 5 are `wire::shape`. Each function judges one kind of
//! call and changes nothing.

use crate::certificate::{Certificate, Timeout};
use crate::kept::{BallotRows, Window};
use crate::name::{block_name, CONTENTS};
use crate::replica::Replica;
use crate::types::{Block, Height, Name, Refusal, View, Vote, GENESIS};
use crate::wire::{self, Progress, Proposal, RawTimeout, TimeoutCertificate};

pub(crate) type Judged = Result<(), Refusal>;

/// 02, 2.5: a call "may come with its contents in a second region". Empty contents are contents.
pub(crate) type Contents<'a> = Option<&'a [u8]>;

/// A proposed block that may be taken: with the certificate that makes its parent safe, and whether it isn't held yet.
pub(crate) struct Placed {
    pub safe: Certificate,
    pub block: Block,
    pub is_new: bool,
}

fn refuse_if(condition: bool, refusal: Refusal) -> Judged {
    if condition {
        Err(refusal)
    } else {
        Ok(())
    }
}

impl Replica {
    /// What refusal 2 asks of the state: 1 ≤ view ≤ 2^62 and an entry certificate of its kind's length. Settings, own
    /// number, the leader list's length and the store's count can't be wrong here.
    pub fn is_sound(&self) -> bool {
        let view = self.counters.view;
        View(1) <= view && view <= View::MAX && self.memory.entry.is_sound(self.settings().n())
    }

    /// 2, and "right after 2" 16: "Contents over 4,096 bytes", beside whatever they come.
    pub(crate) fn judge_regions(&self, contents: Contents<'_>) -> Judged {
        refuse_if(!self.is_sound(), Refusal::Regions)?;
        refuse_if(contents.is_some_and(|contents| contents.len() > CONTENTS), Refusal::ContentsTooLong)
    }

    /// 17: "a name that isn't the digest" of the block's own parent and height with the contents, if any came.
    fn judge_name(block: &Block, contents: Contents<'_>) -> Judged {
        match contents {
            None => Ok(()),
            Some(contents) => {
                let digest = block_name(block.parent, block.height, contents)?;
                refuse_if(block.name != digest, Refusal::NameWrong)
            }
        }
    }

    /// 6: "sender ≥ n"
    fn judge_sender(&self, sender: u16) -> Judged {
        refuse_if(u32::from(sender) >= self.settings().n(), Refusal::Party)
    }

    /// 6: "sender ≥ n; own number in kinds 1, 2, 5, 7"
    fn judge_other(&self, sender: u16) -> Judged {
        self.judge_sender(sender)?;
        refuse_if(sender == self.own(), Refusal::Party)
    }

    /// 7 and 8 against a window. It begins at 1 or above and ends below 2^62.
    fn judge_window(view: View, window: Window) -> Judged {
        refuse_if(view.0 < window.low, Refusal::ViewBelow)?;
        refuse_if(view.0 > window.high, Refusal::ViewAbove)
    }

    /// 7 and 8 for kinds 6 and 7. The current view is at least 1.
    fn judge_view(&self, view: View) -> Judged {
        refuse_if(view < self.counters.view, Refusal::ViewBelow)?;
        refuse_if(view >= View::MAX, Refusal::ViewAbove)
    }

    /// Kinds 1 and 2.
    pub(crate) fn judge_ballot(&self, kept: &BallotRows, sender: u16, vote: Vote) -> Judged {
        self.judge_other(sender)?;
        Self::judge_window(vote.view, Window::of_votes(self.counters.view))?;
        match kept.row(vote.view).get(sender) {
            None => Ok(()),
            Some(name) if *name == vote.name => Err(Refusal::Repeated),
            Some(_) => Err(Refusal::Conflicting),
        }
    }

    /// Kind 3.
    pub(crate) fn judge_block_certificate(&self, sender: u16, certificate: &Certificate) -> Judged {
        self.judge_sender(sender)?;
        refuse_if(certificate.view >= View::MAX, Refusal::ViewAbove)?;
        refuse_if(!self.protocol().certificate_is_good(certificate), Refusal::Certificate)?;
        refuse_if(!certificate.outranks(&self.counters.lock), Refusal::Repeated)
    }

    /// Kind 5.
    pub(crate) fn judge_timeout(&self, timeout: &Timeout, raw: &RawTimeout) -> Judged {
        self.judge_other(timeout.sender)?;
        Self::judge_window(timeout.view, Window::of_timeouts(self.counters.view))?;
        refuse_if(!self.protocol().timeout_is_good(timeout), Refusal::Certificate)?;
        match self.memory.timeouts.row(timeout.view).get(timeout.sender) {
            None => Ok(()),
            Some(kept) if kept == raw => Err(Refusal::Repeated),
            Some(_) => Err(Refusal::Conflicting),
        }
    }

    /// Kind 6.
    pub(crate) fn judge_timeout_certificate(&self, sender: u16, certificate: &TimeoutCertificate<'_>) -> Judged {
        self.judge_sender(sender)?;
        self.judge_view(certificate.view)?;
        refuse_if(!self.protocol().timeout_certificate_is_good(certificate), Refusal::Certificate)
    }

    /// Kind 7.
    pub(crate) fn judge_proposal(&self, proposal: &Proposal<'_>, contents: Contents<'_>) -> Result<Placed, Refusal> {
        self.judge_other(proposal.sender)?;
        self.judge_leader(proposal)?;
        self.judge_view(proposal.view)?;
        refuse_if(!self.progress_is_good(proposal), Refusal::Certificate)?;
        Self::judge_name(&proposal.block, contents)?;
        self.judge_voted(proposal.view, &proposal.block.name)?;
        let held = self.held(&proposal.block.name);
        refuse_if(held.is_some_and(|held| held != proposal.block), Refusal::Conflicting)?;
        let safe = self.safe_of(&proposal.progress);
        let parent = self.held(&safe.name).ok_or(Refusal::ParentMissing)?;
        refuse_if(proposal.block.parent != safe.name, Refusal::ParentWrong)?;
        Self::judge_height(proposal.block.height, parent.height)?;
        let is_new = held.is_none();
        refuse_if(is_new && self.memory.store.is_full(), Refusal::StoreFull)?;
        Ok(Placed { safe, block: proposal.block, is_new })
    }

    /// 6: "proposal of a view ≥ 1 not by its leader"
    fn judge_leader(&self, proposal: &Proposal<'_>) -> Judged {
        let by_other = proposal.view != View(0) && self.leader(proposal.view) != proposal.sender;
        refuse_if(by_other, Refusal::Party)
    }

    /// Of the view before, and good by itself.
    fn progress_is_good(&self, proposal: &Proposal<'_>) -> bool {
        proposal.progress.view().0 == proposal.view.0 - 1
            && match &proposal.progress {
                Progress::Block(certificate) => self.protocol().certificate_is_good(certificate),
                Progress::Timeouts(certificate) => self.protocol().timeout_certificate_is_good(certificate),
            }
    }

    /// 10: "proposal voted for"; 11: "another name voted for in that view"
    fn judge_voted(&self, view: View, name: &Name) -> Judged {
        let high_vote = self.counters.high_vote;
        refuse_if(high_vote == Vote { view, name: *name }, Refusal::Repeated)?;
        refuse_if(high_vote.view == view, Refusal::Conflicting)
    }

    /// 13: "height not parent's plus 1, or over 2^62"
    fn judge_height(height: Height, parent: Height) -> Judged {
        refuse_if(parent.child() != Some(height), Refusal::ParentWrong)
    }

    /// Kind 8.
    pub(crate) fn judge_block(&self, sender: u16, block: &Block, contents: Contents<'_>) -> Judged {
        self.judge_sender(sender)?;
        Self::judge_name(block, contents)?;
        if let Some(held) = self.held(&block.name) {
            return Err(if held == *block { Refusal::Repeated } else { Refusal::Conflicting });
        }
        let parent = self.held(&block.parent).ok_or(Refusal::ParentMissing)?;
        Self::judge_height(block.height, parent.height)?;
        refuse_if(self.memory.store.is_full(), Refusal::StoreFull)
    }

    /// The timer. In view 2^62 every timer that isn't below is above.
    pub(crate) fn judge_timer(&self, view: View) -> Judged {
        refuse_if(view < self.counters.view, Refusal::ViewBelow)?;
        refuse_if(view > self.counters.view || view >= View::MAX, Refusal::ViewAbove)?;
        refuse_if(self.counters.timed >= view, Refusal::Repeated)
    }

    /// Propose: 15 first, "then 5 (zero name), 11 (name held), 12 (safe block not held), 13 (height over 2^62), 14", and by 02
    /// 17 before 14, "with the safe block and its height plus 1".
    pub(crate) fn judge_propose(&self, name: Name, contents: Contents<'_>) -> Result<Placed, Refusal> {
        refuse_if(!self.is_turn(), Refusal::Turn)?;
        refuse_if(name == GENESIS, Refusal::Content)?;
        refuse_if(self.held(&name).is_some(), Refusal::Conflicting)?;
        let placed = self.place(name)?;
        Self::judge_name(&placed.block, contents)?;
        refuse_if(self.memory.store.is_full(), Refusal::StoreFull)?;
        Ok(placed)
    }

    /// A new block of this name on the safe block of the entry certificate.
    fn place(&self, name: Name) -> Result<Placed, Refusal> {
        let safe = self.safe_of(&wire::read_progress(self.memory.entry.record()));
        let parent = self.held(&safe.name).ok_or(Refusal::ParentMissing)?;
        let height = parent.height.child().ok_or(Refusal::ParentWrong)?;
        Ok(Placed { safe, block: Block { name, parent: safe.name, height }, is_new: true })
    }

    /// 15 turned round: "not leader, timed ≥ view, voted in it, or view 2^62".
    fn is_turn(&self) -> bool {
        let counters = &self.counters;
        self.leader(counters.view) == self.own()
            && counters.timed < counters.view
            && counters.high_vote.view != counters.view
            && counters.view != View::MAX
    }

    /// The block that propose makes of a name: on the safe block of the entry certificate, if that is held and below 2^62. On a
    /// state that `is_sound`.
    pub fn proposed(&self, name: Name) -> Option<Block> {
        self.place(name).ok().map(|placed| placed.block)
    }

    /// The held block of this name. 01: "The tip is held."
    pub fn held(&self, name: &Name) -> Option<Block> {
        self.memory.store.get(&self.counters.tip, name)
    }

    /// 01: "A block certificate is its own safe certificate."
    pub(crate) fn safe_of(&self, progress: &Progress<'_>) -> Certificate {
        match progress {
            Progress::Block(certificate) => *certificate,
            Progress::Timeouts(certificate) => self.protocol().safe_certificate(certificate.timeouts),
        }
    }
}
