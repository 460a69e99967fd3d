//! Certificates and timeouts: rank, when they are good, and the safe certificate.

use crate::settings::Protocol;
use crate::types::{Name, View, Vote, GENESIS};
use crate::wire::{self, TimeoutCertificate, Timeouts};

#[derive(Clone, Copy, Debug, PartialEq, Eq, Hash)]
pub enum CertificateKind {
    Block,
    Weak,
}

/// A block certificate or a weak one. 01: "A signer set is u64, bit i for box i."
#[derive(Clone, Copy, Debug, PartialEq, Eq, Hash)]
pub struct Certificate {
    pub kind: CertificateKind,
    pub view: View,
    pub name: Name,
    pub signers: u64,
}

impl Certificate {
    /// 01: "The genesis certificate is kind 3, view 0, zero name, no signers".
    pub const GENESIS: Certificate = Certificate::block(View(0), GENESIS, 0);

    pub const fn block(view: View, name: Name, signers: u64) -> Certificate {
        Certificate { kind: CertificateKind::Block, view, name, signers }
    }

    pub const fn weak(view: View, name: Name, signers: u64) -> Certificate {
        Certificate { kind: CertificateKind::Weak, view, name, signers }
    }

    /// 01: "Of two certificates the higher view ranks above; at one view a block certificate ranks above a weak
    /// one; then the smaller name."
    pub fn outranks(&self, other: &Certificate) -> bool {
        if self.view != other.view {
            return self.view > other.view;
        }
        if self.kind != other.kind {
            return self.kind == CertificateKind::Block;
        }
        self.name < other.name
    }
}

/// A timeout as values. 01: "high vote view, name; certificate kind u16 (3, or 4 for weak) .. view, name, signers".
#[derive(Clone, Copy, Debug, PartialEq, Eq)]
pub struct Timeout {
    pub sender: u16,
    pub view: View,
    pub high_vote: Vote,
    pub certificate: Certificate,
}

impl Protocol {
    /// Rank as a replica with these faults sees it; `Certificate::outranks` where there are none.
    pub fn outranks(&self, one: &Certificate, other: &Certificate) -> bool {
        if self.faults.weak_over_block && one.view == other.view && one.kind != other.kind {
            return one.kind == CertificateKind::Weak;
        }
        one.outranks(other)
    }

    /// Whether a certificate "reaches its threshold or is the genesis one"; "no other certificate of view 0 is good".
    pub fn certificate_is_good(&self, certificate: &Certificate) -> bool {
        if certificate.view == View(0) {
            return *certificate == Certificate::GENESIS;
        }
        let quorum = match certificate.kind {
            CertificateKind::Block => self.quorums.block,
            CertificateKind::Weak => self.quorums.weak,
        };
        certificate.signers.count_ones() >= quorum
    }

    /// 01: "In a good timeout the certificate reaches its threshold or is the genesis one, and its view and the high
    /// vote's are at most the timeout's."
    pub fn timeout_is_good(&self, timeout: &Timeout) -> bool {
        self.certificate_is_good(&timeout.certificate)
            && timeout.certificate.view <= timeout.view
            && timeout.high_vote.view <= timeout.view
    }

    /// Whether a timeout certificate has enough timeouts, all good. None of view 0 is good.
    pub fn timeout_certificate_is_good(&self, certificate: &TimeoutCertificate<'_>) -> bool {
        certificate.view != View(0)
            && certificate.timeouts.count() >= self.quorums.timeout as usize
            && certificate.timeouts.iter().all(|timeout| self.timeout_is_good(&timeout))
    }

    /// The safe certificate of a timeout certificate. 01: "The candidates .. are those carried in its timeouts, and a
    /// weak certificate for each view and name that at least f+p+1 of its timeouts give as high vote (signers: those
    /// senders). The highest candidate is its safe certificate; for equal kind, view and name, carried before built,
    /// lowest sender first." Of no timeouts at all (no good certificate) it is the genesis certificate.
    pub fn safe_certificate(&self, timeouts: Timeouts<'_>) -> Certificate {
        self.safe_certificate_of(timeouts.raw())
    }

    /// The same of timeouts as bytes, whichever way they come.
    pub(crate) fn safe_certificate_of<'a>(&self, timeouts: impl Iterator<Item = &'a [u8]> + Clone) -> Certificate {
        let carried = self.highest_carried(timeouts.clone());
        if self.faults.high_votes_left_out {
            return carried;
        }
        self.highest_built(timeouts, carried)
    }

    fn highest_carried<'a>(&self, timeouts: impl Iterator<Item = &'a [u8]>) -> Certificate {
        let mut carried = timeouts.map(|timeout| wire::read_timeout(timeout).certificate);
        let first = carried.next().unwrap_or(Certificate::GENESIS);
        carried.fold(first, |best, next| if self.outranks(&next, &best) { next } else { best })
    }

    /// The highest of `best` and the built weak certificates. Only a high vote that would outrank is counted.
    fn highest_built<'a>(
        &self,
        timeouts: impl Iterator<Item = &'a [u8]> + Clone,
        mut best: Certificate,
    ) -> Certificate {
        let mut too_few = Vote::NONE;
        for vote in timeouts.clone().map(wire::high_vote_of) {
            let candidate = Certificate::weak(vote.view, vote.name, 0);
            if vote.view == View(0) || vote == too_few || !self.outranks(&candidate, &best) {
                continue;
            }
            let (count, signers) = self.backing(timeouts.clone(), vote);
            if count >= self.quorums.weak {
                best = Certificate { signers, ..candidate };
            } else {
                too_few = vote;
            }
        }
        best
    }

    /// How many timeouts give this high vote, and their senders.
    fn backing<'a>(&self, timeouts: impl Iterator<Item = &'a [u8]>, vote: Vote) -> (u32, u64) {
        let mut count = 0;
        let mut signers = 0;
        for timeout in timeouts {
            if wire::high_vote_of(timeout) == vote {
                count += 1;
                signers |= 1u64.checked_shl(u32::from(wire::sender_of(timeout))).unwrap_or(0);
            }
        }
        (count, signers & self.settings.everyone())
    }
}
