//! Rules A to D. 01: "After the event the first rule that applies is run, again and again". That is the same as all A,
//! then all B, then all C, each in ascending views, then D from the lowest pair again and again: no rule makes an
//! earlier one apply. `literal` has 01's loop to the letter; a test of `streams` compares both on garbage states.

use crate::certificate::Certificate;
use crate::kept::{members, Window};
use crate::replica::Replica;
use crate::store::{Path, Place};
use crate::types::{Name, View};
use crate::wire;

/// A pair (view, name) that D applies to, with the way from its block to the tip.
pub(crate) struct Decision {
    pub view: View,
    pub path: Path,
}

impl Replica {
    /// Runs rules until none applies. Every accepted call does this at its end; afterwards it does nothing. On a state
    /// that `is_sound`.
    pub fn settle(&mut self, out: &mut Vec<u8>) {
        self.echo_timeouts(out);
        self.form_timeout_certificates(out);
        self.form_block_certificates(out);
        while let Some(decision) = self.decided() {
            self.release(&decision, out);
        }
    }

    /// A: "f+1 timeouts of a view w ≥ view with timed < w: send one for w and set timed to w."
    fn echo_timeouts(&mut self, out: &mut Vec<u8>) {
        for view in Window::of_timeouts(self.counters.view).views() {
            if self.counters.timed < view && self.timeout_count(view) > self.settings().f() {
                self.send_timeout(view, out);
            }
        }
    }

    /// B: "enough timeouts of a view ≥ view: form the certificate of all that are kept for it."
    fn form_timeout_certificates(&mut self, out: &mut Vec<u8>) {
        for view in Window::of_timeouts(self.counters.view).views() {
            if self.timeout_count(view) >= self.protocol().quorums.timeout {
                self.form_timeout_certificate(view, out);
            }
        }
    }

    pub(crate) fn form_timeout_certificate(&mut self, view: View, out: &mut Vec<u8>) {
        let start = out.len();
        let row = self.memory.timeouts.row(view);
        let given = row.given & self.settings().everyone();
        wire::write_timeout_certificate_head(out, self.own(), view, given.count_ones() as usize);
        for replica in members(given) {
            out.extend_from_slice(&row.raw[replica]);
        }
        self.take_written_timeout_certificate(view, start, out);
    }

    fn timeout_count(&self, view: View) -> u32 {
        (self.memory.timeouts.row(view).given & self.settings().everyone()).count_ones()
    }

    /// C: "enough votes whose certificate outranks the lock: form it, its signers all boxes with that kept vote."
    fn form_block_certificates(&mut self, out: &mut Vec<u8>) {
        let window = Window::of_votes(self.counters.view);
        let low = window.low.max(self.counters.lock.view.0); // below the lock's view nothing outranks it
        for view in (Window { low, ..window }).views() {
            if let Some(certificate) = self.formable(view) {
                self.take_block_certificate(certificate, out);
            }
        }
    }

    fn formable(&self, view: View) -> Option<Certificate> {
        let outranks = |name: &Name| Certificate::block(view, *name, 0).outranks(&self.counters.lock);
        let row = self.memory.votes.row(view);
        let backed = row.backed(self.settings().everyone(), self.protocol().quorums.block, outranks);
        backed.min_by_key(|(name, _)| *name).map(|(name, signers)| Certificate::block(view, name, signers))
    }

    /// D's lowest pair: "a fast or slow release of a held block above the tip .. Lowest view first, then smaller name."
    fn decided(&self) -> Option<Decision> {
        if self.memory.store.is_empty() {
            return None;
        }
        Window::of_votes(self.counters.view).views().find_map(|view| self.decided_in(view))
    }

    fn decided_in(&self, view: View) -> Option<Decision> {
        let everyone = self.settings().everyone();
        let quorums = self.protocol().quorums;
        let not_tip = |name: &Name| *name != self.counters.tip.name;
        let fast = self.memory.votes.row(view).backed(everyone, quorums.fast, not_tip);
        let slow = self.memory.commits.row(view).backed(everyone, quorums.slow, not_tip);
        let applies = |(name, _)| self.path_to_tip(&name).map(|path| (name, path));
        let (_, path) = fast.chain(slow).filter_map(applies).min_by_key(|(name, _)| *name)?;
        Some(Decision { view, path })
    }

    /// The way from a held block of this name down to the tip; none for the tip itself.
    pub(crate) fn path_to_tip(&self, name: &Name) -> Option<Path> {
        let tip = &self.counters.tip;
        match self.memory.store.find(tip, name)? {
            Place::Tip => None,
            Place::Entry(entry) => self.memory.store.walk(tip, entry),
        }
    }

    /// 01: "writes the releases upward with the view of the deciding votes or commits, moves the tip, and drops every
    /// block that doesn't descend from it."
    pub(crate) fn release(&mut self, decision: &Decision, out: &mut Vec<u8>) {
        for entry in decision.path.upward() {
            let block = self.memory.store.blocks()[entry];
            wire::write_release(out, self.own(), decision.view, block.name, block.height);
            self.counters.tip = block;
        }
        self.memory.store.keep_descendants(&self.counters.tip);
    }
}
