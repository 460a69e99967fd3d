//! What stands in for the card, which makes and checks signatures.
//!
//! A signature is a keyed hash of 128 bits over a record, made with std's hasher. It is no cryptography: it is there
//! so that the Byzantine process, which has its own key only, can't speak for others, and so that hosts have to carry
//! and check every signature that a real one has to. Honest processes have all keys, and use another's key only to
//! check.
//!
//! A certificate says who voted, so it travels with the signature of each signer's vote; a timeout with that of its
//! high vote too, of which others may build a weak certificate.

use std::collections::{HashMap, HashSet};
use std::hash::{DefaultHasher, Hash, Hasher};

use oracle::wire::{self, Progress, Record, TimeoutCertificate};
use oracle::{members, Certificate, Timeout, Vote};

pub type Key = [u8; 16];
pub type Signature = [u8; 16];

/// Views below the current one whose votes a replica keeps.
pub const KEPT_BELOW: u64 = 4;

/// A record that somebody signed: a vote, commit, timeout or proposal, or the greeting of a connection.
#[derive(Clone, Debug, PartialEq, Eq, Hash)]
pub struct Statement {
    pub signer: u16,
    pub bytes: Vec<u8>,
}

impl Statement {
    /// "I am `signer`, on a connection to `to`."
    pub fn greeting(signer: u16, to: u16) -> Statement {
        Statement { signer, bytes: format!("greeting {signer} {to}").into_bytes() }
    }

    pub fn vote(signer: u16, vote: Vote) -> Statement {
        let mut bytes = Vec::new();
        wire::write_vote(&mut bytes, signer, vote);
        Statement { signer, bytes }
    }

    pub fn view(&self) -> u64 {
        wire::u64_at(&self.bytes, 8)
    }
}

fn keyed_hash(key: &Key, bytes: &[u8]) -> Signature {
    let mut hash = Signature::default();
    for (half, part) in hash.chunks_exact_mut(8).enumerate() {
        let mut hasher = DefaultHasher::new();
        (half, key, bytes).hash(&mut hasher);
        part.copy_from_slice(&hasher.finish().to_le_bytes());
    }
    hash
}

/// Signs for one replica.
#[derive(Clone)]
pub struct Signer {
    pub own: u16,
    pub key: Key,
}

impl Signer {
    pub fn sign(&self, bytes: &[u8]) -> Signature {
        keyed_hash(&self.key, bytes)
    }
}

/// Checks the signatures of all.
#[derive(Clone)]
pub struct Verifier {
    pub keys: Vec<Key>,
}

impl Verifier {
    pub fn verifies(&self, statement: &Statement, signature: &Signature) -> bool {
        let key = self.keys.get(usize::from(statement.signer));
        key.is_some_and(|key| keyed_hash(key, &statement.bytes) == *signature)
    }

    /// Whether these are the signatures of all that a record says, in their order.
    pub fn verify_all(&self, statements: &[Statement], signatures: &[Signature]) -> bool {
        statements.len() == signatures.len()
            && statements.iter().zip(signatures).all(|(statement, signature)| self.verifies(statement, signature))
    }
}

/// All that must be signed in a record. What is no record says nothing: the replica refuses it.
pub fn statements(record: &[u8], n: u32) -> Vec<Statement> {
    let whole = |signer| Statement { signer, bytes: record.to_vec() };
    match wire::read(record, n) {
        Err(_) | Ok(Record::Block { .. }) => Vec::new(),
        Ok(Record::Vote { sender, .. } | Record::Commit { sender, .. }) => vec![whole(sender)],
        Ok(Record::BlockCertificate { certificate, .. }) => votes(&certificate).collect(),
        Ok(Record::Timeout { timeout, .. }) => timeout_statements(&timeout),
        Ok(Record::TimeoutCertificate { certificate, .. }) => inner_statements(&certificate),
        Ok(Record::Proposal(proposal)) => {
            let inner = match &proposal.progress {
                Progress::Block(certificate) => votes(certificate).collect(),
                Progress::Timeouts(certificate) => inner_statements(certificate),
            };
            [vec![whole(proposal.sender)], inner].concat()
        }
    }
}

fn votes(certificate: &Certificate) -> impl Iterator<Item = Statement> {
    let vote = Vote { view: certificate.view, name: certificate.name };
    members(certificate.signers).map(move |signer| Statement::vote(signer as u16, vote))
}

fn inner_statements(certificate: &TimeoutCertificate<'_>) -> Vec<Statement> {
    certificate.timeouts.iter().flat_map(|timeout| timeout_statements(&timeout)).collect()
}

fn timeout_statements(timeout: &Timeout) -> Vec<Statement> {
    let own = Statement { signer: timeout.sender, bytes: wire::raw_timeout(timeout).to_vec() };
    let high_vote = (timeout.high_vote != Vote::NONE).then(|| Statement::vote(timeout.sender, timeout.high_vote));
    [own].into_iter().chain(high_vote).chain(votes(&timeout.certificate)).collect()
}

/// The signatures that a host needs to send on what its replica makes of the records of others.
pub struct Signatures {
    signer: Signer,
    n: u32,
    known: HashMap<Statement, Signature>,
}

impl Signatures {
    pub fn new(signer: Signer, n: u32, known: impl IntoIterator<Item = (Statement, Signature)>) -> Signatures {
        Signatures { signer, n, known: known.into_iter().collect() }
    }

    pub fn known(&self) -> &HashMap<Statement, Signature> {
        &self.known
    }

    pub fn learn(&mut self, statements: Vec<Statement>, signatures: &[Signature]) {
        self.known.extend(statements.into_iter().zip(signatures.iter().copied()));
    }

    /// All signatures of a record that the own replica made; none where one of another's is missing. Own ones are made.
    pub fn gather(&mut self, record: &[u8]) -> Option<Vec<Signature>> {
        let statements = statements(record, self.n);
        let found: Option<Vec<Signature>> = statements.iter().map(|statement| self.find(statement)).collect();
        let found = found?;
        self.learn(statements, &found);
        Some(found)
    }

    /// One signature; an own one is made.
    pub fn find(&self, statement: &Statement) -> Option<Signature> {
        if statement.signer == self.signer.own {
            return Some(self.signer.sign(&statement.bytes));
        }
        self.known.get(statement).copied()
    }

    /// Forgets what the replica can't come back to: it keeps votes and timeouts from a little below its view on, what
    /// kept timeouts carry, and some certificates, which are given as records.
    pub fn sweep(&mut self, view: u64, certificates: &[Vec<u8>]) {
        let is_kept = |statement: &Statement| statement.view() + KEPT_BELOW >= view;
        let recent: Vec<Statement> = self.known.keys().filter(|statement| is_kept(statement)).cloned().collect();
        let carried = recent.iter().flat_map(|statement| statements(&statement.bytes, self.n));
        let held = certificates.iter().flat_map(|record| statements(record, self.n));
        let needed: HashSet<Statement> = carried.chain(held).collect();
        self.known.retain(|statement, _| needed.contains(statement));
    }
}

#[cfg(test)]
mod tests {
    use super::*;
    use oracle::View;

    const N: u32 = 6;

    fn keys() -> Vec<Key> {
        (0..N as u8).map(|own| [own; 16]).collect()
    }

    fn signer(own: u16) -> Signer {
        Signer { own, key: keys()[usize::from(own)] }
    }

    fn signatures(statements: &[Statement]) -> Vec<Signature> {
        statements.iter().map(|statement| signer(statement.signer).sign(&statement.bytes)).collect()
    }

    fn timeout(sender: u16, high_vote: Vote, certificate: Certificate) -> Timeout {
        Timeout { sender, view: View(9), high_vote, certificate }
    }

    /// A timeout certificate of two timeouts: a high vote, and a certificate of votes of replicas 0 and 2.
    fn timeout_certificate() -> Vec<u8> {
        let weak = Certificate::weak(View(3), [3; 32], 0b101);
        let timeouts =
            [timeout(1, Vote { view: View(9), name: [9; 32] }, Certificate::GENESIS), timeout(4, Vote::NONE, weak)];
        let mut record = Vec::new();
        wire::write_timeout_certificate(&mut record, 0, View(9), &timeouts);
        record
    }

    #[test]
    fn every_vote_and_timeout_inside_is_signed() {
        let statements = statements(&timeout_certificate(), N);
        let signers: Vec<u16> = statements.iter().map(|statement| statement.signer).collect();
        assert_eq!(signers, [1, 1, 4, 0, 2]);
        assert_eq!(statements[3], Statement::vote(0, Vote { view: View(3), name: [3; 32] }));
    }

    #[test]
    fn each_signature_must_be_right() {
        let statements = statements(&timeout_certificate(), N);
        let verifier = Verifier { keys: keys() };
        let right = signatures(&statements);
        assert!(verifier.verify_all(&statements, &right));
        assert!(!verifier.verify_all(&statements, &right[1..]));
        for place in 0..right.len() {
            let mut wrong = right.clone();
            wrong[place][7] ^= 1;
            assert!(!verifier.verify_all(&statements, &wrong), "{place}");
        }
    }

    #[test]
    fn a_swept_table_still_has_what_the_replica_keeps() {
        let record = timeout_certificate();
        let statements = statements(&record, N);
        let mut table = Signatures::new(signer(5), N, []);
        assert_eq!(table.gather(&record), None);
        let all = signatures(&statements);
        table.learn(statements, &all);
        table.sweep(13, &[]); // view 9 is kept, and the votes of view 3 with it
        assert_eq!(table.gather(&record), Some(all.clone()));
        table.sweep(14, std::slice::from_ref(&record));
        assert_eq!(table.gather(&record), Some(all));
        table.sweep(14, &[]);
        assert!(table.known().is_empty());
    }
}
