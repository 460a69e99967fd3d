//! 02, 2.3: whose timeout decided what a timeout certificate makes safe. A call of its own that touches no replica.

use crate::faults::Faults;
use crate::settings::{Protocol, Settings};
use crate::types::{Refusal, View};
use crate::wire::{self, kind, TimeoutCertificate, Timeouts};

/// 02, 2.3: "Given a good timeout certificate, name the lowest sender whose timeout, taken out, leaves a certificate that
/// still has enough timeouts but another safe block by name. Answer "none" if no sender has that property".
pub fn decisive(f: u64, c: u64, k: u64, n: u64, record: &[u8]) -> Result<Option<u16>, Refusal> {
    let settings = Settings::new(f, c, k).filter(|settings| u64::from(settings.n()) == n).ok_or(Refusal::Settings)?;
    let protocol = Protocol::new(settings, Faults::NONE);
    let certificate = good_timeout_certificate(&protocol, record)?;
    Ok(protocol.decisive_sender(certificate.timeouts))
}

/// The certificate, or the first refusal: "Beyond that it refuses a bad record as the box would, by 3, 4, 5, 6, 8 and 9,
/// with view 0 refused by 7 in its place".
fn good_timeout_certificate<'a>(protocol: &Protocol, record: &'a [u8]) -> Result<TimeoutCertificate<'a>, Refusal> {
    let n = protocol.settings.n();
    let certificate = read(record, n)?;
    if u32::from(wire::sender_of(record)) >= n {
        return Err(Refusal::Party);
    }
    if certificate.view == View(0) {
        return Err(Refusal::ViewBelow);
    }
    if certificate.view >= View::MAX {
        return Err(Refusal::ViewAbove);
    }
    if !protocol.timeout_certificate_is_good(&certificate) {
        return Err(Refusal::Certificate);
    }
    Ok(certificate)
}

/// Reads a record of kind 6, or gives the first refusal of its shape: "a kind other than 6 by 4". As 01 says of "a kind
/// that 4 turns away", such a one "has no length of its own".
fn read(record: &[u8], n: u32) -> Result<TimeoutCertificate<'_>, Refusal> {
    if !wire::length_field_fits(record) {
        return Err(Refusal::Length);
    }
    if wire::kind_of(record) != kind::TIMEOUT_CERTIFICATE {
        return Err(Refusal::Kind);
    }
    wire::shape(record, n)?;
    Ok(wire::read_timeout_certificate(record))
}

impl Protocol {
    /// The lowest sender whose timeout the name of the safe block hangs on; nobody's where none can be spared, "as with
    /// exactly n−f−c timeouts". What is left builds its weak certificates anew.
    fn decisive_sender(&self, timeouts: Timeouts<'_>) -> Option<u16> {
        if timeouts.count() <= self.quorums.timeout as usize {
            return None;
        }
        let name = self.safe_certificate(timeouts).name;
        let decides = |place| self.safe_certificate_of(timeouts.raw_without(place)).name != name;
        timeouts.senders().enumerate().find(|(place, _)| decides(*place)).map(|(_, sender)| sender)
    }
}
