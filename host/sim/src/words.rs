//! Records, certificates and names in words.

use oracle::wire::{self, Record};
use oracle::{Block, Certificate, CertificateKind, Name, Protocol, Timeout, Vote, GENESIS};

/// A record in words; of a timeout certificate the safe block as replicas of this protocol choose it.
pub fn describe(record: &[u8], protocol: &Protocol) -> String {
    let read = match wire::read(record, protocol.settings.n()) {
        Ok(read) => read,
        Err(_) if is_release(record) => return release(record),
        Err(refusal) => return format!("{} bytes ({refusal:?})", record.len()),
    };
    match read {
        Record::Vote { sender, vote } => format!("vote of {sender} for {}", pair(vote)),
        Record::Commit { sender, vote } => format!("commit of {sender} for {}", pair(vote)),
        Record::BlockCertificate { certificate: it, .. } => certificate(&it),
        Record::Timeout { timeout: it, .. } => timeout(&it),
        Record::TimeoutCertificate { certificate: it, .. } => {
            let senders = join(it.timeouts.senders());
            let safe = certificate(&protocol.safe_certificate(it.timeouts));
            format!("timeout certificate of view {} by {senders} (safe: {safe})", it.view.0)
        }
        Record::Proposal(it) => format!("proposal of {} in view {}: {}", it.sender, it.view.0, block(&it.block)),
        Record::Block { block: it, .. } => format!("block {}", block(&it)),
    }
}

fn is_release(record: &[u8]) -> bool {
    record.len() == wire::RELEASE && wire::kind_of(record) == wire::kind::RELEASE
}

fn release(record: &[u8]) -> String {
    format!("RELEASE of {} at height {}", name(&wire::name_at(record, 16)), wire::u64_at(record, 48))
}

pub fn join(numbers: impl Iterator<Item = impl ToString>) -> String {
    numbers.map(|number| number.to_string()).collect::<Vec<_>>().join(" ")
}

pub fn block(block: &Block) -> String {
    format!("{} on {} at height {}", name(&block.name), name(&block.parent), block.height.0)
}

pub fn pair(vote: Vote) -> String {
    if vote == Vote::NONE {
        "nothing".to_string()
    } else {
        format!("{} in view {}", name(&vote.name), vote.view.0)
    }
}

pub fn certificate(certificate: &Certificate) -> String {
    let kind = match certificate.kind {
        _ if *certificate == Certificate::GENESIS => return "genesis certificate".to_string(),
        CertificateKind::Block => "block",
        CertificateKind::Weak => "weak",
    };
    let signers = join(oracle::members(certificate.signers));
    format!("{kind} certificate for {} in view {} by {signers}", name(&certificate.name), certificate.view.0)
}

pub fn timeout(timeout: &Timeout) -> String {
    let carried = certificate(&timeout.certificate);
    let high_vote = pair(timeout.high_vote);
    format!("timeout of {} for view {}: high vote {high_vote}, {carried}", timeout.sender, timeout.view.0)
}

/// The longest label that is shown.
const LABEL: usize = 16;

/// A name as people write it: its letter if it is one letter over and over, its label if it is a printable one of 2 to
/// 16 letters filled up with zeros, otherwise its first eight hex digits.
pub fn name(name: &Name) -> String {
    if *name == GENESIS {
        return "genesis".to_string();
    }
    label(name).unwrap_or_else(|| name[..4].iter().map(|byte| format!("{byte:02x}")).collect())
}

fn label(name: &Name) -> Option<String> {
    let first = name[0];
    if first.is_ascii_alphanumeric() && name.iter().all(|byte| *byte == first) {
        return Some((first as char).to_string());
    }
    let length = name.iter().rposition(|byte| *byte != 0)? + 1;
    let text = &name[..length];
    let printable =
        (2..=LABEL).contains(&length) && text.iter().all(|byte| byte.is_ascii_alphanumeric() || b"-_.".contains(byte));
    printable.then(|| text.iter().map(|byte| *byte as char).collect())
}

#[cfg(test)]
mod tests {
    use super::*;

    #[test]
    fn names() {
        let filled = |text: &[u8]| {
            let mut name = [0; 32];
            name[..text.len()].copy_from_slice(text);
            name
        };
        assert_eq!(name(&GENESIS), "genesis");
        assert_eq!(name(&[b'A'; 32]), "A");
        assert_eq!(name(&filled(b"crate-7")), "crate-7");
        assert_eq!(name(&filled(b"A")), "41000000"); // not A, which is another name
        assert_eq!(name(&filled(b"<b>")), "3c623e00"); // nothing that a page would have to escape
        assert_eq!(name(&[0xc8; 32]), "c8c8c8c8");
        assert_eq!(name(&filled(b"longer-than-sixteen")), "6c6f6e67");
    }
}
