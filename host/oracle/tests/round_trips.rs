//! Every kind of record: written, read back, and written again the same.

mod common;

use common::*;
use oracle::wire::{self, Progress, Record};
use oracle::{Certificate, Height, Timeout, View, Vote};

fn sample_timeout(sender: u16) -> Timeout {
    Timeout {
        sender,
        view: View(0x0102_0304_0506),
        high_vote: Vote { view: View(77), name: name(9) },
        certificate: Certificate::weak(View(76), name(8), 0b10_1010),
    }
}

fn read(bytes: &[u8]) -> Record<'_> {
    assert_eq!(wire::u32_at(bytes, 0) as usize, bytes.len());
    wire::read(bytes, 6).expect("a record of good shape")
}

#[test]
fn votes_and_commits() {
    let vote = Vote { view: View(u64::MAX), name: name(3) };
    let bytes = vote_record(5, vote.view.0, vote.name);
    assert_eq!(bytes.len(), 48);
    assert!(matches!(read(&bytes), Record::Vote { sender: 5, vote: read } if read == vote));
    let bytes = commit_record(4, vote.view.0, vote.name);
    assert_eq!(bytes.len(), 48);
    assert!(matches!(read(&bytes), Record::Commit { sender: 4, vote: read } if read == vote));
}

#[test]
fn block_certificates() {
    let certificate = Certificate::block(View(5), name(3), 0b11_0011);
    let bytes = certificate_record(2, 5, name(3), 0b11_0011);
    assert_eq!(bytes.len(), 56);
    assert!(matches!(read(&bytes), Record::BlockCertificate { sender: 2, certificate: read } if read == certificate));
}

#[test]
fn timeouts() {
    let mut timeouts = [sample_timeout(0), sample_timeout(1), sample_timeout(2)];
    timeouts[1].certificate = Certificate::block(View(1), name(4), 0b1111);
    timeouts[2].high_vote = Vote::NONE;
    for sample in timeouts {
        let bytes = timeout_record(&sample);
        assert_eq!(bytes.len(), 112);
        let Record::Timeout { timeout, raw } = read(&bytes) else { panic!("a timeout") };
        assert_eq!(timeout, sample);
        assert_eq!(raw[..], bytes);
        assert_eq!(wire::raw_timeout(&timeout)[..], bytes);
    }
}

#[test]
fn timeout_certificates() {
    for count in [0, 1, 4, 6] {
        let timeouts: Vec<_> = (0..count).map(sample_timeout).collect();
        let bytes = timeouts_record(3, timeouts.first().map_or(9, |t| t.view.0), &timeouts);
        assert_eq!(bytes.len(), 24 + 112 * count as usize);
        let Record::TimeoutCertificate { sender: 3, certificate } = read(&bytes) else { panic!("kind 6") };
        let read: Vec<_> = certificate.timeouts.iter().collect();
        assert_eq!(read, timeouts);
        assert_eq!(timeouts_record(3, certificate.view.0, &read), bytes);
        assert_eq!(certificate.timeouts.senders().collect::<Vec<_>>(), (0..count).collect::<Vec<_>>());
    }
}

#[test]
fn proposals() {
    let block = block(7, name(6), 0x1122_3344);
    let certificate = certificate_record(4, 8, name(6), 0b1111);
    let timeouts: Vec<_> = (0..6).map(sample_timeout).collect();
    let timeouts = timeouts_record(4, timeouts[0].view.0, &timeouts);
    for progress in [certificate, timeouts] {
        let bytes = proposal_record(4, 9, &block, &progress);
        assert_eq!(bytes.len(), 88 + progress.len());
        let Record::Proposal(proposal) = read(&bytes) else { panic!("a proposal") };
        assert_eq!((proposal.sender, proposal.view, proposal.block), (4, View(9), block));
        assert_eq!(proposal.progress.view().0, wire::u64_at(&progress, 8));
        match proposal.progress {
            Progress::Block(read) => assert_eq!(certificate_record(4, read.view.0, read.name, read.signers), progress),
            Progress::Timeouts(read) => assert_eq!(read.bytes, progress),
        }
    }
}

#[test]
fn blocks_and_releases() {
    let block = block(7, name(6), 5);
    let bytes = block_record(1, &block);
    assert_eq!(bytes.len(), 80);
    assert!(matches!(read(&bytes), Record::Block { sender: 1, block: read } if read == block));

    let bytes = record(|out| wire::write_release(out, 2, View(3), name(4), Height(5)));
    let expected = [&[56, 0, 0, 0, 9, 0, 2, 0][..], &3u64.to_le_bytes(), &[4; 32], &5u64.to_le_bytes()].concat();
    assert_eq!(bytes, expected);
}

#[test]
fn an_output_is_cut_into_its_records() {
    let records =
        [vote_record(1, 2, name(3)), timeout_record(&sample_timeout(1)), block_record(1, &block(1, name(2), 3))];
    let output = records.concat();
    assert_eq!(wire::records(&output).collect::<Vec<_>>(), records);
}
