//! The records that a replica writes, read for the host.

use crate::types::{Block, Certificate, Height, Name, View, Vote};

/// One record of an output: its bytes, as they are sent, and what they say.
#[derive(Clone, Copy, Debug, PartialEq, Eq)]
pub struct Record<'a> {
    pub bytes: &'a [u8],
    pub content: Content<'a>,
}

/// What a record says. A replica writes no block (kind 8): those come from hosts.
#[derive(Clone, Copy, Debug, PartialEq, Eq)]
pub enum Content<'a> {
    Vote(Vote),
    Commit(Vote),
    BlockCertificate(Certificate),
    Timeout(Timeout),
    TimeoutCertificate(TimeoutCertificate<'a>),
    Proposal(Proposal<'a>),
    Release(Release),
}

/// To whom the host takes a record.
#[derive(Clone, Copy, Debug, PartialEq, Eq)]
pub enum Receiver {
    /// To every other replica.
    Others,
    /// To this replica, the leader of the next view by the list; it may be oneself.
    Leader(u64),
    /// Nowhere: it tells the host what was released.
    Host,
}

/// A timeout: the sender's high vote, and the higher of its lock and its best weak certificate.
#[derive(Clone, Copy, Debug, PartialEq, Eq)]
pub struct Timeout {
    pub sender: u16,
    pub view: View,
    pub high_vote: Option<Vote>,
    pub weak: bool,
    pub certificate: Certificate,
}

/// A timeout certificate: the timeouts of a view, senders ascending.
#[derive(Clone, Copy, Debug, PartialEq, Eq)]
pub struct TimeoutCertificate<'a> {
    pub view: View,
    timeouts: &'a [u8],
}

impl<'a> TimeoutCertificate<'a> {
    pub fn timeouts(&self) -> impl Iterator<Item = Timeout> + 'a {
        self.timeouts.chunks_exact(TIMEOUT).filter_map(read_timeout)
    }
}

/// A proposal: a block, and the certificate of the view before by which it may be built.
#[derive(Clone, Copy, Debug, PartialEq, Eq)]
pub struct Proposal<'a> {
    pub view: View,
    pub block: Block,
    pub progress: Progress<'a>,
}

/// The certificate inside a proposal, or by which a view was entered.
#[derive(Clone, Copy, Debug, PartialEq, Eq)]
pub enum Progress<'a> {
    Block(Certificate),
    Timeouts(TimeoutCertificate<'a>),
}

/// A block that is final. The view is that of the votes or commits that decided it.
#[derive(Clone, Copy, Debug, PartialEq, Eq)]
pub struct Release {
    pub view: View,
    pub name: Name,
    pub height: Height,
}

const TIMEOUT: usize = 112;
const FIRST_TIMEOUT: usize = 24;
const PROGRESS: usize = 88;

impl<'a> Record<'a> {
    /// The first record of some output and the bytes after it; none where there is none.
    pub(crate) fn cut(output: &'a [u8]) -> Option<(Record<'a>, &'a [u8])> {
        let length = u32::from_le_bytes(*output.first_chunk()?) as usize;
        let (bytes, rest) = output.split_at_checked(length)?;
        Some((Record { bytes, content: Content::read(bytes)? }, rest))
    }

    /// To whom it goes, in a cluster with this leader list.
    pub(crate) fn receiver(&self, leaders: &[u8]) -> Receiver {
        match self.content {
            Content::TimeoutCertificate(certificate) => {
                let next = leader_after(leaders, certificate.view);
                Receiver::Leader(next.unwrap_or_default().into())
            }
            Content::Release(_) => Receiver::Host,
            _ => Receiver::Others,
        }
    }
}

/// Who leads the view after this one: entry `view` mod the list's length.
pub(crate) fn leader_after(leaders: &[u8], view: View) -> Option<u16> {
    let entry = view.0.checked_rem(leaders.len() as u64)?;
    leaders.get(entry as usize).copied().map(u16::from)
}

impl<'a> Content<'a> {
    fn read(bytes: &'a [u8]) -> Option<Content<'a>> {
        Some(match u16_at(bytes, 4)? {
            1 => Content::Vote(vote_at(bytes, 8)?),
            2 => Content::Commit(vote_at(bytes, 8)?),
            3 => Content::BlockCertificate(certificate_at(bytes, 8)?),
            5 => Content::Timeout(read_timeout(bytes)?),
            6 => Content::TimeoutCertificate(read_timeout_certificate(bytes)?),
            7 => Content::Proposal(read_proposal(bytes)?),
            9 => Content::Release(Release {
                view: View(u64_at(bytes, 8)?),
                name: name_at(bytes, 16)?,
                height: Height(u64_at(bytes, 48)?),
            }),
            _ => return None,
        })
    }
}

fn read_timeout(bytes: &[u8]) -> Option<Timeout> {
    let high_vote = vote_at(bytes, 16)?;
    Some(Timeout {
        sender: u16_at(bytes, 6)?,
        view: View(u64_at(bytes, 8)?),
        high_vote: (high_vote.view > View(0)).then_some(high_vote),
        weak: u16_at(bytes, 56)? != 3,
        certificate: certificate_at(bytes, 64)?,
    })
}

fn read_timeout_certificate(bytes: &[u8]) -> Option<TimeoutCertificate<'_>> {
    Some(TimeoutCertificate { view: View(u64_at(bytes, 8)?), timeouts: bytes.get(FIRST_TIMEOUT..)? })
}

impl<'a> Progress<'a> {
    /// The names that it gives, each once: a block certificate its own, a timeout certificate those of its timeouts'
    /// certificates and high votes. Its safe block is one of them.
    pub fn names(&self) -> Vec<Name> {
        let mut names = match self {
            Progress::Block(certificate) => vec![certificate.name],
            Progress::Timeouts(certificate) => certificate.timeouts().flat_map(names_of).collect(),
        };
        names.sort_unstable();
        names.dedup();
        names
    }

    pub(crate) fn read(bytes: &'a [u8]) -> Option<Progress<'a>> {
        match u16_at(bytes, 4)? {
            3 => Some(Progress::Block(certificate_at(bytes, 8)?)),
            _ => Some(Progress::Timeouts(read_timeout_certificate(bytes)?)),
        }
    }
}

fn names_of(timeout: Timeout) -> impl Iterator<Item = Name> {
    [timeout.certificate.name].into_iter().chain(timeout.high_vote.map(|vote| vote.name))
}

fn read_proposal(bytes: &[u8]) -> Option<Proposal<'_>> {
    let progress = Progress::read(bytes.get(PROGRESS..)?)?;
    let block = Block { name: name_at(bytes, 16)?, parent: name_at(bytes, 48)?, height: Height(u64_at(bytes, 80)?) };
    Some(Proposal { view: View(u64_at(bytes, 8)?), block, progress })
}

fn vote_at(bytes: &[u8], at: usize) -> Option<Vote> {
    Some(Vote { view: View(u64_at(bytes, at)?), name: name_at(bytes, at + 8)? })
}

fn certificate_at(bytes: &[u8], at: usize) -> Option<Certificate> {
    let Vote { view, name } = vote_at(bytes, at)?;
    Some(Certificate { view, name, signers: u64_at(bytes, at + 40)? })
}

fn name_at(bytes: &[u8], at: usize) -> Option<Name> {
    Some(Name { bytes: *bytes.get(at..)?.first_chunk()? })
}

pub(crate) fn u16_at(bytes: &[u8], at: usize) -> Option<u16> {
    Some(u16::from_le_bytes(*bytes.get(at..)?.first_chunk()?))
}

fn u64_at(bytes: &[u8], at: usize) -> Option<u64> {
    Some(u64::from_le_bytes(*bytes.get(at..)?.first_chunk()?))
}
