//! Timeout certificates as records: where a call has one, and what is left of one without a sender's timeout.

use oracle::wire::{self, kind, Timeouts};
use oracle::{Timeout, View};

/// The timeout certificate that a record is or, in a proposal, has as its progress certificate. The record is one that a
/// replica accepted or wrote.
pub fn certificate_in(record: &[u8]) -> Option<&[u8]> {
    let certificate = match wire::kind_of(record) {
        kind::PROPOSAL => &record[wire::PROPOSAL..],
        _ => record,
    };
    (wire::kind_of(certificate) == kind::TIMEOUT_CERTIFICATE).then_some(certificate)
}

/// The same timeout certificate with this sender's timeout taken out.
pub fn without(certificate: &[u8], sender: u16) -> Vec<u8> {
    let left: Vec<Timeout> = Timeouts::of(certificate).iter().filter(|timeout| timeout.sender != sender).collect();
    let mut record = Vec::new();
    let view = View(wire::u64_at(certificate, 8));
    wire::write_timeout_certificate(&mut record, wire::sender_of(certificate), view, &left);
    record
}
