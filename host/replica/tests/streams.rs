//! Streams through the safe calls: a replica that is saved and restored after every call goes on to the same bytes, and
//! each record that is written says what the oracle reads in it.

use oracle::{wire, Leaders};
use replica::{
    Accepted, Content, Contents, Name, Progress, Receiver, Record, Refusal, Replica, Settings, Timeout, View,
};
use streams::{play_stream, Call, Coverage, Opening, Stream};

fn open(opening: Opening) -> Replica {
    let [f, c, k, n, own] = opening.numbers();
    Replica::open(Settings { f, c, k, n }, own, opening.leaders.list()).expect("settings and a list that are taken")
}

fn make<'a>(replica: &'a mut Replica, call: &Call) -> Result<Accepted<'a>, Refusal> {
    match call {
        Call::Record(bytes) => replica.record(bytes),
        Call::Timer(view) => replica.timer(View(*view)),
        Call::Propose(name) => replica.propose(Name { bytes: *name }),
        Call::RecordWith(bytes, contents) => replica.record_with(bytes, Contents(contents)),
        Call::ProposeWith(name, contents) => replica.propose_with(Name { bytes: *name }, Contents(contents)),
    }
}

/// The calls of a stream that comes with contents at times.
fn calls(opening: Opening, seed: u64, count: usize) -> Vec<Call> {
    play_stream(opening, Stream::new(seed).with_contents(), count, &mut Coverage::default()).calls
}

/// Its answer and output.
fn answer(replica: &mut Replica, call: &Call) -> Result<Vec<u8>, Refusal> {
    make(replica, call).map(|accepted| accepted.unsaved().bytes().to_vec())
}

#[test]
fn a_restored_replica_goes_on_to_the_same_bytes() {
    for seed in 0..6 {
        let opening = Opening::seeded_led(seed);
        let (mut steady, mut saved) = (open(opening), open(opening).save());
        for call in calls(opening, seed, 500) {
            let mut resumed = Replica::restore(&saved).expect("what a call left");
            assert_eq!(answer(&mut resumed, &call), answer(&mut steady, &call));
            saved = resumed.save();
            assert!(saved == steady.save());
        }
    }
}

#[test]
fn damaged_saves_are_refused() {
    let saved = open(Opening::seeded(1)).save();
    assert_eq!(saved.len(), Replica::SAVED);
    let mut longer = saved.clone();
    longer.push(0);
    for bytes in [&saved[1..], &saved[..saved.len() - 1], &[], &longer] {
        assert_eq!(Replica::restore(bytes).err(), Some(Refusal::Regions));
    }
    const MEMORY: usize = 224;
    let rules: [(usize, &[u8]); 8] = [
        (0, &[0; 8]),            // the view
        (7, &[0x80]),            // the same, above 2^62
        (MEMORY, &[0xFF, 0xFF]), // f
        (MEMORY + 6, &[32, 0]),  // own number
        (MEMORY + 8, &[129, 0]), // blocks held
        (MEMORY + 12, &[0, 0]),  // entries of the leader list
        (MEMORY + 12, &[65, 0]),
        (MEMORY + 80 + 4, &[5, 0]), // the entry certificate's kind
    ];
    for (at, bytes) in rules {
        let mut damaged = saved.clone();
        damaged[at..at + bytes.len()].copy_from_slice(bytes);
        assert_eq!(Replica::restore(&damaged).err(), Some(Refusal::Regions), "byte {at}");
    }
}

#[test]
fn state_is_saved_before_output_is_had() {
    let mut replica = open(Opening::new(1, 1, 0, 0).expect("good settings"));
    let opened = replica.save();
    let output = replica.timer(View(1)).expect("accepted").saved(|state| {
        assert!(state.save() != opened);
        Err("no room")
    });
    assert_eq!(output.err(), Some("no room"), "nothing is sent where saving failed");
}

/// Every byte of every output belongs to a record, and what is read from it, written anew, is the record.
#[test]
fn records_say_what_their_bytes_say() {
    let mut kinds = [0; 10];
    for seed in 0..40 {
        let opening = Opening::seeded_led(seed);
        let mut replica = open(opening);
        assert_eq!(replica.leaders(), opening.leaders.list());
        for call in calls(opening, seed, 400) {
            let Ok(accepted) = make(&mut replica, &call) else { continue };
            let output = accepted.unsaved();
            let mut again = Vec::new();
            for (receiver, record) in output.sendings() {
                kinds[usize::from(wire::kind_of(record.bytes))] += 1;
                write(&mut again, opening.own as u16, &record);
                assert_eq!(receiver, expected_receiver(&record, &opening.leaders));
            }
            assert_eq!(again, output.bytes());
        }
    }
    assert!([1, 2, 3, 5, 6, 7, 9].iter().all(|&kind| kinds[kind] > 20), "{kinds:?}");
}

fn expected_receiver(record: &Record, leaders: &Leaders) -> Receiver {
    match wire::kind_of(record.bytes) {
        6 => Receiver::Leader(leaders.leader(oracle::View(wire::u64_at(record.bytes, 8) + 1)).into()),
        9 => Receiver::Host,
        _ => Receiver::Others,
    }
}

fn write(out: &mut Vec<u8>, own: u16, record: &Record) {
    match record.content {
        Content::Vote(vote) => wire::write_vote(out, own, vote_of(vote)),
        Content::Commit(vote) => wire::write_commit(out, own, vote_of(vote)),
        Content::BlockCertificate(certificate) => {
            wire::write_block_certificate(out, own, &certificate_of(certificate, oracle::CertificateKind::Block));
        }
        Content::Timeout(timeout) => wire::write_timeout(out, &timeout_of(timeout)),
        Content::TimeoutCertificate(certificate) => out.extend(timeout_certificate(own, certificate)),
        Content::Proposal(proposal) => {
            let block = oracle::Block {
                name: proposal.block.name.bytes,
                parent: proposal.block.parent.bytes,
                height: oracle::Height(proposal.block.height.0),
            };
            let mut inner = Vec::new();
            match proposal.progress {
                Progress::Block(certificate) => wire::write_block_certificate(
                    &mut inner,
                    own,
                    &certificate_of(certificate, oracle::CertificateKind::Block),
                ),
                Progress::Timeouts(certificate) => inner = timeout_certificate(own, certificate),
            }
            wire::write_proposal(out, own, oracle::View(proposal.view.0), &block, &inner);
        }
        Content::Release(release) => wire::write_release(
            out,
            own,
            oracle::View(release.view.0),
            release.name.bytes,
            oracle::Height(release.height.0),
        ),
    }
}

fn timeout_certificate(own: u16, certificate: replica::TimeoutCertificate) -> Vec<u8> {
    let timeouts: Vec<_> = certificate.timeouts().map(timeout_of).collect();
    let mut bytes = Vec::new();
    wire::write_timeout_certificate(&mut bytes, own, oracle::View(certificate.view.0), &timeouts);
    bytes
}

fn vote_of(vote: replica::Vote) -> oracle::Vote {
    oracle::Vote { view: oracle::View(vote.view.0), name: vote.name.bytes }
}

fn certificate_of(certificate: replica::Certificate, kind: oracle::CertificateKind) -> oracle::Certificate {
    let replica::Certificate { view, name, signers } = certificate;
    oracle::Certificate { kind, view: oracle::View(view.0), name: name.bytes, signers }
}

fn timeout_of(timeout: Timeout) -> oracle::Timeout {
    let kind = if timeout.weak { oracle::CertificateKind::Weak } else { oracle::CertificateKind::Block };
    oracle::Timeout {
        sender: timeout.sender,
        view: oracle::View(timeout.view.0),
        high_vote: timeout.high_vote.map_or(oracle::Vote::NONE, vote_of),
        certificate: certificate_of(timeout.certificate, kind),
    }
}
