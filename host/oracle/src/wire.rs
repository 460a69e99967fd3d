//! Records as bytes: shape (refusals 3, 4, 5), readers and writers. 01: "Little-endian. Header: length u32 (the
//! whole record), kind u16, sender u16."

use crate::certificate::{Certificate, CertificateKind, Timeout};
use crate::settings::Settings;
use crate::types::{Block, Height, Name, Refusal, View, Vote, GENESIS};

/// 01's numbers for the kinds of records.
pub mod kind {
    pub const VOTE: u16 = 1;
    pub const COMMIT: u16 = 2;
    pub const BLOCK_CERTIFICATE: u16 = 3;
    /// Only as a timeout's certificate kind.
    pub const WEAK_CERTIFICATE: u16 = 4;
    pub const TIMEOUT: u16 = 5;
    pub const TIMEOUT_CERTIFICATE: u16 = 6;
    pub const PROPOSAL: u16 = 7;
    pub const BLOCK: u16 = 8;
    pub const RELEASE: u16 = 9;
    /// The run program's own three.
    pub const TIMER: u16 = 10;
    pub const PROPOSE: u16 = 11;
    pub const OPENING: u16 = 12;
}

pub const HEADER: usize = 8;
pub const VOTE: usize = 48;
pub const BLOCK_CERTIFICATE: usize = 56;
pub const TIMEOUT: usize = 112;
/// A timeout certificate before its timeouts.
pub const TIMEOUT_CERTIFICATE: usize = 24;
/// A proposal before its progress certificate.
pub const PROPOSAL: usize = 88;
pub const BLOCK: usize = 80;
pub const RELEASE: usize = 56;
pub const TIMER: usize = 16;
pub const PROPOSE: usize = 40;
pub const OPENING: usize = 24;
/// The longest record that a replica takes: a proposal with a timeout certificate of the largest cluster.
pub const LONGEST: usize = PROPOSAL + TIMEOUT_CERTIFICATE + TIMEOUT * Settings::MAX_N;

/// A timeout as bytes.
pub type RawTimeout = [u8; TIMEOUT];

pub fn u16_at(bytes: &[u8], at: usize) -> u16 {
    u16::from_le_bytes(array_at(bytes, at))
}

pub fn u32_at(bytes: &[u8], at: usize) -> u32 {
    u32::from_le_bytes(array_at(bytes, at))
}

pub fn u64_at(bytes: &[u8], at: usize) -> u64 {
    u64::from_le_bytes(array_at(bytes, at))
}

pub fn name_at(bytes: &[u8], at: usize) -> Name {
    array_at(bytes, at)
}

fn array_at<const N: usize>(bytes: &[u8], at: usize) -> [u8; N] {
    bytes[at..at + N].try_into().expect("a slice of N bytes")
}

/// A record's kind field.
pub fn kind_of(record: &[u8]) -> u16 {
    u16_at(record, 4)
}

/// A record's sender field.
pub fn sender_of(record: &[u8]) -> u16 {
    u16_at(record, 6)
}

/// A timeout's high vote.
pub fn high_vote_of(timeout: &[u8]) -> Vote {
    vote_at(timeout, 16)
}

fn vote_at(bytes: &[u8], at: usize) -> Vote {
    Vote { view: View(u64_at(bytes, at)), name: name_at(bytes, at + 8) }
}

/// Where a proposal or a block has its block: name, parent, height. None in other kinds, and where it is cut short.
pub fn block_place(record: &[u8]) -> Option<usize> {
    let (at, length) = match (record.len() >= HEADER).then(|| kind_of(record))? {
        kind::PROPOSAL => (16, PROPOSAL),
        kind::BLOCK => (8, BLOCK),
        _ => return None,
    };
    (record.len() >= length).then_some(at)
}

/// The block of a proposal or a block record, whatever else is wrong with it.
pub fn block_of(record: &[u8]) -> Option<Block> {
    block_place(record).map(|at| block_at(record, at))
}

// ---------------------------------------------------------------- shape

/// The first of the refusals 3, 4 and 5 that holds of a slice, inner records included.
pub fn shape(bytes: &[u8], n: u32) -> Result<(), Refusal> {
    if !lengths_fit(bytes) {
        Err(Refusal::Length)
    } else if !kinds_fit(bytes) {
        Err(Refusal::Kind)
    } else if !contents_fit(bytes, n) {
        Err(Refusal::Content)
    } else {
        Ok(())
    }
}

/// Refusal 3 turned round. A kind that 4 turns away "has no length of its own".
fn lengths_fit(bytes: &[u8]) -> bool {
    length_field_fits(bytes)
        && match kind_of(bytes) {
            kind::VOTE | kind::COMMIT => bytes.len() == VOTE,
            kind::TIMEOUT => bytes.len() == TIMEOUT,
            kind::PROPOSAL => bytes.len() >= PROPOSAL && progress_lengths_fit(&bytes[PROPOSAL..]),
            kind::BLOCK => bytes.len() == BLOCK,
            kind::BLOCK_CERTIFICATE | kind::TIMEOUT_CERTIFICATE => progress_lengths_fit(bytes),
            _ => true,
        }
}

/// Whether a slice is framed as a record: it has a header, and the length field is the slice's length.
pub(crate) fn length_field_fits(bytes: &[u8]) -> bool {
    bytes.len() >= HEADER && u32_at(bytes, 0) as usize == bytes.len()
}

/// The same for a record in the place of a progress certificate, which is of kind 3 or 6.
fn progress_lengths_fit(bytes: &[u8]) -> bool {
    length_field_fits(bytes)
        && match kind_of(bytes) {
            kind::BLOCK_CERTIFICATE => bytes.len() == BLOCK_CERTIFICATE,
            kind::TIMEOUT_CERTIFICATE => timeout_lengths_fit(bytes),
            _ => true,
        }
}

fn timeout_lengths_fit(bytes: &[u8]) -> bool {
    bytes.len() >= TIMEOUT_CERTIFICATE
        && bytes.len() == TIMEOUT_CERTIFICATE + TIMEOUT * usize::from(u16_at(bytes, 16))
        && Timeouts::of(bytes).raw().all(|timeout| u32_at(timeout, 0) as usize == TIMEOUT)
}

/// Refusal 4 turned round, on a record whose lengths fit.
fn kinds_fit(bytes: &[u8]) -> bool {
    match kind_of(bytes) {
        kind::VOTE | kind::COMMIT | kind::BLOCK => true,
        kind::TIMEOUT => timeout_kinds_fit(bytes),
        kind::PROPOSAL => progress_kinds_fit(&bytes[PROPOSAL..]),
        _ => progress_kinds_fit(bytes),
    }
}

fn progress_kinds_fit(bytes: &[u8]) -> bool {
    match kind_of(bytes) {
        kind::BLOCK_CERTIFICATE => true,
        kind::TIMEOUT_CERTIFICATE => {
            Timeouts::of(bytes).raw().all(|timeout| kind_of(timeout) == kind::TIMEOUT && timeout_kinds_fit(timeout))
        }
        _ => false,
    }
}

/// "a timeout's certificate kind not 3 or 4"
fn timeout_kinds_fit(timeout: &[u8]) -> bool {
    matches!(u16_at(timeout, 56), kind::BLOCK_CERTIFICATE | kind::WEAK_CERTIFICATE)
}

/// Refusal 5 turned round, on a record whose lengths and kinds fit.
fn contents_fit(bytes: &[u8], n: u32) -> bool {
    match kind_of(bytes) {
        kind::VOTE | kind::COMMIT => name_at(bytes, 16) != GENESIS,
        kind::TIMEOUT => timeout_contents_fit(bytes, n),
        kind::PROPOSAL => {
            let inner = &bytes[PROPOSAL..];
            let sender = sender_of(bytes);
            name_at(bytes, 16) != GENESIS
                && sender_of(inner) == sender
                && u32::from(sender) < n
                && progress_contents_fit(inner, n)
        }
        kind::BLOCK => name_at(bytes, 8) != GENESIS,
        _ => progress_contents_fit(bytes, n),
    }
}

fn progress_contents_fit(bytes: &[u8], n: u32) -> bool {
    match kind_of(bytes) {
        kind::BLOCK_CERTIFICATE => signers_fit(u64_at(bytes, 48), n),
        _ => padding_fits(bytes, 18) && inner_timeouts_fit(bytes, n),
    }
}

/// Inner timeouts are of the certificate's view, by strictly ascending senders below n.
fn inner_timeouts_fit(bytes: &[u8], n: u32) -> bool {
    let view = u64_at(bytes, 8);
    let mut lowest = 0;
    for timeout in Timeouts::of(bytes).raw() {
        let sender = u32::from(sender_of(timeout));
        if sender < lowest || sender >= n || u64_at(timeout, 8) != view || !timeout_contents_fit(timeout, n) {
            return false;
        }
        lowest = sender + 1;
    }
    true
}

/// A timeout's own part of refusal 5: padding, "half-empty high vote; signer ≥ n".
fn timeout_contents_fit(timeout: &[u8], n: u32) -> bool {
    let high_vote = high_vote_of(timeout);
    padding_fits(timeout, 58)
        && (high_vote.view == View(0)) == (high_vote.name == GENESIS)
        && signers_fit(u64_at(timeout, 104), n)
}

fn padding_fits(bytes: &[u8], at: usize) -> bool {
    bytes[at..at + 6] == [0; 6]
}

fn signers_fit(signers: u64, n: u32) -> bool {
    signers >> n == 0
}

// ---------------------------------------------------------------- readers

/// A record's fields; inner records stay bytes.
#[derive(Clone, Copy, Debug)]
pub enum Record<'a> {
    Vote { sender: u16, vote: Vote },
    Commit { sender: u16, vote: Vote },
    BlockCertificate { sender: u16, certificate: Certificate },
    Timeout { timeout: Timeout, raw: &'a RawTimeout },
    TimeoutCertificate { sender: u16, certificate: TimeoutCertificate<'a> },
    Proposal(Proposal<'a>),
    Block { sender: u16, block: Block },
}

/// 01: "view, count u16, 6 zero bytes, then count timeouts, senders ascending". `bytes` is the whole record.
#[derive(Clone, Copy, Debug)]
pub struct TimeoutCertificate<'a> {
    pub view: View,
    pub timeouts: Timeouts<'a>,
    pub bytes: &'a [u8],
}

/// 01: "the progress certificate inside it is a record of kind 3 or 6".
#[derive(Clone, Copy, Debug)]
pub enum Progress<'a> {
    Block(Certificate),
    Timeouts(TimeoutCertificate<'a>),
}

impl Progress<'_> {
    pub fn view(&self) -> View {
        match self {
            Progress::Block(certificate) => certificate.view,
            Progress::Timeouts(certificate) => certificate.view,
        }
    }
}

#[derive(Clone, Copy, Debug)]
pub struct Proposal<'a> {
    pub sender: u16,
    pub view: View,
    pub block: Block,
    pub progress: Progress<'a>,
}

/// The timeouts of a timeout certificate, as bytes one after another.
#[derive(Clone, Copy, Debug)]
pub struct Timeouts<'a>(&'a [u8]);

impl<'a> Timeouts<'a> {
    /// The timeouts of a whole record of kind 6.
    pub fn of(record: &'a [u8]) -> Timeouts<'a> {
        Timeouts(&record[TIMEOUT_CERTIFICATE..])
    }

    pub fn count(self) -> usize {
        self.0.len() / TIMEOUT
    }

    /// 01: "each timeout inside a timeout certificate is read as a record of its own".
    pub fn raw(self) -> impl Iterator<Item = &'a [u8]> + Clone {
        self.0.chunks_exact(TIMEOUT)
    }

    /// All but the one at this place.
    pub fn raw_without(self, place: usize) -> impl Iterator<Item = &'a [u8]> + Clone {
        let (before, rest) = self.0.split_at(TIMEOUT * place);
        before.chunks_exact(TIMEOUT).chain(rest[TIMEOUT..].chunks_exact(TIMEOUT))
    }

    pub fn iter(self) -> impl Iterator<Item = Timeout> + 'a {
        self.raw().map(read_timeout)
    }

    pub fn senders(self) -> impl Iterator<Item = u16> + 'a {
        self.raw().map(sender_of)
    }
}

/// Reads a slice as a record, or gives the first refusal of its shape.
pub fn read(bytes: &[u8], n: u32) -> Result<Record<'_>, Refusal> {
    shape(bytes, n)?;
    let sender = sender_of(bytes);
    Ok(match kind_of(bytes) {
        kind::VOTE => Record::Vote { sender, vote: vote_at(bytes, 8) },
        kind::COMMIT => Record::Commit { sender, vote: vote_at(bytes, 8) },
        kind::TIMEOUT => {
            Record::Timeout { timeout: read_timeout(bytes), raw: bytes.try_into().expect("length 112 by its shape") }
        }
        kind::PROPOSAL => Record::Proposal(read_proposal(bytes)),
        kind::BLOCK => Record::Block { sender, block: block_at(bytes, 8) },
        _ => match read_progress(bytes) {
            Progress::Block(certificate) => Record::BlockCertificate { sender, certificate },
            Progress::Timeouts(certificate) => Record::TimeoutCertificate { sender, certificate },
        },
    })
}

/// Reads 112 bytes as a timeout. A certificate kind other than 3 reads as weak; shape lets only 3 and 4 by.
pub fn read_timeout(bytes: &[u8]) -> Timeout {
    let kind = match u16_at(bytes, 56) {
        kind::BLOCK_CERTIFICATE => CertificateKind::Block,
        _ => CertificateKind::Weak,
    };
    let Vote { view, name } = vote_at(bytes, 64);
    Timeout {
        sender: sender_of(bytes),
        view: View(u64_at(bytes, 8)),
        high_vote: high_vote_of(bytes),
        certificate: Certificate { kind, view, name, signers: u64_at(bytes, 104) },
    }
}

/// Reads a record of kind 3 or 6.
pub fn read_progress(bytes: &[u8]) -> Progress<'_> {
    let view = View(u64_at(bytes, 8));
    match kind_of(bytes) {
        kind::BLOCK_CERTIFICATE => Progress::Block(Certificate::block(view, name_at(bytes, 16), u64_at(bytes, 48))),
        _ => Progress::Timeouts(read_timeout_certificate(bytes)),
    }
}

/// Reads a record of kind 6.
pub fn read_timeout_certificate(bytes: &[u8]) -> TimeoutCertificate<'_> {
    TimeoutCertificate { view: View(u64_at(bytes, 8)), timeouts: Timeouts::of(bytes), bytes }
}

fn read_proposal(bytes: &[u8]) -> Proposal<'_> {
    Proposal {
        sender: sender_of(bytes),
        view: View(u64_at(bytes, 8)),
        block: block_at(bytes, 16),
        progress: read_progress(&bytes[PROPOSAL..]),
    }
}

fn block_at(bytes: &[u8], at: usize) -> Block {
    Block { name: name_at(bytes, at), parent: name_at(bytes, at + 32), height: Height(u64_at(bytes, at + 64)) }
}

// ---------------------------------------------------------------- writers

fn write_header(out: &mut Vec<u8>, length: usize, kind: u16, sender: u16) {
    out.extend_from_slice(&(length as u32).to_le_bytes());
    out.extend_from_slice(&kind.to_le_bytes());
    out.extend_from_slice(&sender.to_le_bytes());
}

fn write_u64(out: &mut Vec<u8>, number: u64) {
    out.extend_from_slice(&number.to_le_bytes());
}

pub fn write_vote(out: &mut Vec<u8>, sender: u16, vote: Vote) {
    write_ballot(out, kind::VOTE, sender, vote);
}

pub fn write_commit(out: &mut Vec<u8>, sender: u16, vote: Vote) {
    write_ballot(out, kind::COMMIT, sender, vote);
}

fn write_ballot(out: &mut Vec<u8>, kind: u16, sender: u16, vote: Vote) {
    write_header(out, VOTE, kind, sender);
    write_u64(out, vote.view.0);
    out.extend_from_slice(&vote.name);
}

/// A record of kind 3; the certificate's own kind isn't asked.
pub fn write_block_certificate(out: &mut Vec<u8>, sender: u16, certificate: &Certificate) {
    write_header(out, BLOCK_CERTIFICATE, kind::BLOCK_CERTIFICATE, sender);
    write_u64(out, certificate.view.0);
    out.extend_from_slice(&certificate.name);
    write_u64(out, certificate.signers);
}

pub fn raw_timeout(timeout: &Timeout) -> RawTimeout {
    let Timeout { sender, view, high_vote, certificate } = timeout;
    let certificate_kind = match certificate.kind {
        CertificateKind::Block => kind::BLOCK_CERTIFICATE,
        CertificateKind::Weak => kind::WEAK_CERTIFICATE,
    };
    let mut raw = [0; TIMEOUT];
    raw[0..4].copy_from_slice(&(TIMEOUT as u32).to_le_bytes());
    raw[4..6].copy_from_slice(&kind::TIMEOUT.to_le_bytes());
    raw[6..8].copy_from_slice(&sender.to_le_bytes());
    raw[8..16].copy_from_slice(&view.0.to_le_bytes());
    raw[16..24].copy_from_slice(&high_vote.view.0.to_le_bytes());
    raw[24..56].copy_from_slice(&high_vote.name);
    raw[56..58].copy_from_slice(&certificate_kind.to_le_bytes());
    raw[64..72].copy_from_slice(&certificate.view.0.to_le_bytes());
    raw[72..104].copy_from_slice(&certificate.name);
    raw[104..112].copy_from_slice(&certificate.signers.to_le_bytes());
    raw
}

pub fn write_timeout(out: &mut Vec<u8>, timeout: &Timeout) {
    out.extend_from_slice(&raw_timeout(timeout));
}

/// A record of kind 6 before its timeouts, which the caller appends.
pub fn write_timeout_certificate_head(out: &mut Vec<u8>, sender: u16, view: View, count: usize) {
    write_header(out, TIMEOUT_CERTIFICATE + TIMEOUT * count, kind::TIMEOUT_CERTIFICATE, sender);
    write_u64(out, view.0);
    write_u64(out, count as u64); // count u16, then six zero bytes
}

/// A record of kind 6 of these timeouts, in the order given.
pub fn write_timeout_certificate(out: &mut Vec<u8>, sender: u16, view: View, timeouts: &[Timeout]) {
    write_timeout_certificate_head(out, sender, view, timeouts.len());
    for timeout in timeouts {
        write_timeout(out, timeout);
    }
}

/// `progress` is a whole record of kind 3 or 6.
pub fn write_proposal(out: &mut Vec<u8>, sender: u16, view: View, block: &Block, progress: &[u8]) {
    write_header(out, PROPOSAL + progress.len(), kind::PROPOSAL, sender);
    write_u64(out, view.0);
    write_block_fields(out, block);
    out.extend_from_slice(progress);
}

pub fn write_block(out: &mut Vec<u8>, sender: u16, block: &Block) {
    write_header(out, BLOCK, kind::BLOCK, sender);
    write_block_fields(out, block);
}

fn write_block_fields(out: &mut Vec<u8>, block: &Block) {
    out.extend_from_slice(&block.name);
    out.extend_from_slice(&block.parent);
    write_u64(out, block.height.0);
}

/// 01: "9 release (to the host): view, name, height".
pub fn write_release(out: &mut Vec<u8>, sender: u16, view: View, name: Name, height: Height) {
    write_header(out, RELEASE, kind::RELEASE, sender);
    write_u64(out, view.0);
    out.extend_from_slice(&name);
    write_u64(out, height.0);
}

/// Any record again, with another sender in its header.
pub fn write_resent(out: &mut Vec<u8>, sender: u16, record: &[u8]) {
    write_header(out, record.len(), kind_of(record), sender);
    out.extend_from_slice(&record[HEADER..]);
}

/// The run program's opening. 01: "kind 12 (u16 f, c, k, n, own, 6 zero bytes)", sender 0.
pub fn write_opening(out: &mut Vec<u8>, numbers: [u16; 5]) {
    write_opening_with(out, numbers, &[]);
}

/// The same with a leader list behind it, for the program over lent regions.
pub fn write_opening_with(out: &mut Vec<u8>, numbers: [u16; 5], leaders: &[u8]) {
    write_header(out, OPENING + leaders.len(), kind::OPENING, 0);
    for number in numbers {
        out.extend_from_slice(&number.to_le_bytes());
    }
    out.extend_from_slice(&[0; 6]);
    out.extend_from_slice(leaders);
}

/// The run program's timer. 01: "kind 10 (timer, view u64)", sender 0.
pub fn write_timer(out: &mut Vec<u8>, view: View) {
    write_header(out, TIMER, kind::TIMER, 0);
    write_u64(out, view.0);
}

/// The run program's propose. 01: "11 (propose, name)", sender 0.
pub fn write_propose(out: &mut Vec<u8>, name: Name) {
    write_header(out, PROPOSE, kind::PROPOSE, 0);
    out.extend_from_slice(&name);
}

/// Cuts an output into its records.
pub fn records(mut output: &[u8]) -> impl Iterator<Item = &[u8]> {
    std::iter::from_fn(move || {
        if output.is_empty() {
            return None;
        }
        let (record, rest) = output.split_at(u32_at(output, 0) as usize);
        output = rest;
        Some(record)
    })
}
