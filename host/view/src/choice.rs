//! What each timeout certificate of a run chose as safe block, and on whose timeout that hung.

use std::collections::HashSet;
use std::fmt;
use std::iter;

use oracle::wire::{self, Timeouts};
use oracle::{Faults, Name, Protocol, Settings};
use sim::{timeouts, words};

use crate::play::Event;
use crate::shown::{Decisive, Shown};

/// Why the safe block is the one it is.
#[derive(Clone, Copy, Debug, PartialEq, Eq)]
pub enum DecidedBy {
    /// The decisive timeout is this sender's: without it the safe block would be the other.
    Timeout { sender: u16, otherwise: Name },
    /// Whichever timeout is left out, the safe block is the same.
    NoSingleTimeout,
    /// No timeout can be left out: there are just so many as it takes.
    JustEnough(usize),
}

/// The choice of a timeout certificate.
#[derive(Clone, Copy, Debug, PartialEq, Eq)]
pub struct Choice {
    /// The certificate's.
    pub view: u64,
    pub safe: Name,
    pub decided_by: DecidedBy,
}

impl Choice {
    fn new(settings: Settings, certificate: &[u8], decisive: Decisive) -> Choice {
        let protocol = Protocol::new(settings, Faults::NONE);
        let safe = |certificate: &[u8]| protocol.safe_certificate(Timeouts::of(certificate)).name;
        let count = Timeouts::of(certificate).count();
        let decided_by = match decisive {
            Decisive::Sender(sender) => {
                DecidedBy::Timeout { sender, otherwise: safe(&timeouts::without(certificate, sender)) }
            }
            Decisive::Nobody if count > protocol.quorums.timeout as usize => DecidedBy::NoSingleTimeout,
            Decisive::Nobody => DecidedBy::JustEnough(count),
        };
        Choice { view: wire::u64_at(certificate, 8), safe: safe(certificate), decided_by }
    }
}

impl fmt::Display for Choice {
    fn fmt(&self, out: &mut fmt::Formatter<'_>) -> fmt::Result {
        write!(out, "timeout certificate of view {}: the choice of {} ", self.view, words::name(&self.safe))?;
        match self.decided_by {
            DecidedBy::Timeout { sender, otherwise } => {
                let otherwise = words::name(&otherwise);
                write!(out, "hung on the timeout of replica {sender}; without it the safe block would be {otherwise}")
            }
            DecidedBy::NoSingleTimeout => {
                write!(out, "hung on no single timeout; whichever is left out, the safe block is the same")
            }
            DecidedBy::JustEnough(count) => {
                write!(out, "hung on no single timeout; it has just enough, {count}, and none can be left out")
            }
        }
    }
}

/// The choices of a run, each told once: at the call where a replica first accepts or forms that certificate. Afterwards
/// it comes up again and again, sent on and in proposals.
#[derive(Default)]
pub struct Choices {
    /// Certificates without their headers: whoever sends one puts its own number in.
    told: HashSet<Vec<u8>>,
}

impl Choices {
    /// Those that come up with a call that is accepted.
    pub fn of<C: Shown>(&mut self, event: &Event, replica: &C, settings: Settings) -> Vec<Choice> {
        let records = iter::once(&event.record).chain(&event.written);
        let certificates = records.filter_map(|record| timeouts::certificate_in(record));
        let new = certificates.filter(|certificate| self.told.insert(certificate[wire::HEADER..].to_vec()));
        new.filter_map(|new| Some(Choice::new(settings, new, replica.decisive(new)?))).collect()
    }
}
