//! 02, 2.2 on the library: "every k ≥ 0 is taken as long as n is at most 32", and what a cluster of one writes.

use replica::{
    raw, Block, Certificate, Content, Counters, Height, Name, Output, Progress, Proposal, Receiver, Release, Replica,
    Settings, Timeout, View, Vote,
};

/// Regions in which one opening follows another.
struct Regions {
    counters: Counters,
    memory: Vec<u8>,
    store: Vec<Block>,
}

impl Regions {
    fn new() -> Regions {
        Regions {
            counters: Counters::default(),
            memory: vec![0; raw::MEMORY],
            store: vec![Block::default(); raw::STORE],
        }
    }

    /// Whether the five numbers are taken; they are refused by 1 if not.
    fn take(&mut self, [f, c, k, n, own]: [u64; 5]) -> bool {
        let settings = Settings { f, c, k, n };
        let reply = raw::open(&mut self.counters, &mut self.memory, &self.store, settings, own, &[0]);
        assert!(reply.refusal <= 1 && reply.written == 0, "{f} {c} {k} {n} {own}: {reply:?}");
        reply.refusal == 0
    }
}

/// All numbers near, each settings that is taken with every own number.
#[test]
fn opening_takes_every_settings_of_at_most_32_replicas() {
    let mut regions = Regions::new();
    let mut taken = 0;
    for (f, c, k) in (0..=40).flat_map(|f| (0..=40).flat_map(move |c| (0..=40).map(move |k| (f, c, k)))) {
        for n in 0..=45 {
            let good = n == 3 * f + 2 * c + k + 1 && n <= 32;
            assert_eq!(regions.take([f, c, k, n, 0]), good, "{f} {c} {k} {n}");
            if good {
                taken += 1;
                assert!((1..n).all(|own| regions.take([f, c, k, n, own])), "{f} {c} {k} {n}");
                assert!([n, n + 1, 1 << 16, 1 << 32, u64::MAX].iter().all(|&own| !regions.take([f, c, k, n, own])));
            }
        }
    }
    assert_eq!(taken, 272 + 225 + 182 + 144 + 110 + 81 + 56 + 36 + 20 + 9 + 2, "for f = 0, 1, .. 10");
}

/// No sum wraps round, and no number is cut to fewer bits.
#[test]
fn huge_numbers_are_refused() {
    let mut regions = Regions::new();
    let third = u64::MAX / 3 + 1; // 3 of these are 2 in 64 bits
    for numbers in [
        [third, 0, 0, 3, 0],
        [2 * third, 0, 0, 5, 0],
        [0, 1 << 63, 0, 1, 0],
        [0, u64::MAX, 3, 2, 0],
        [0, 0, u64::MAX, 0, 0],
        [1, 1, u64::MAX - 4, 1, 0],
        [u64::MAX, 1, 0, 6, 0],
        [1 << 32, 1 << 32, 1 << 32, 1, 0],
        [u64::MAX; 5],
    ] {
        assert!(!regions.take(numbers), "{numbers:?}");
    }
    let good = [1, 2, 2, 10, 9];
    assert!(regions.take(good));
    for place in 0..5 {
        for high in [1 << 8, 1 << 16, 1 << 32, 1 << 63, u64::MAX - 99] {
            let mut numbers = good;
            numbers[place] += high;
            assert!(!regions.take(numbers), "{numbers:?}");
        }
    }
}

fn name(byte: u8) -> Name {
    Name { bytes: [byte; 32] }
}

fn one() -> Replica {
    let settings = Settings { f: 0, c: 0, k: 0, n: 1 };
    Replica::open(settings, 0, &settings.in_turn()).expect("a cluster of one")
}

fn written<'a>(output: &Output<'a>) -> Vec<Content<'a>> {
    output.records().map(|record| record.content).collect()
}

fn receivers(output: &Output<'_>) -> Vec<Receiver> {
    output.sendings().map(|(receiver, _)| receiver).collect()
}

/// What follows the proposal of a block in a view where every quorum is 1.
fn decided_alone(view: View, block: Block) -> [Content<'static>; 4] {
    let vote = Vote { view, name: block.name };
    [
        Content::Vote(vote),
        Content::BlockCertificate(Certificate { view, name: block.name, signers: 1 }),
        Content::Commit(vote),
        Content::Release(Release { view, name: block.name, height: block.height }),
    ]
}

#[test]
fn one_replica_decides_what_it_proposes() {
    let mut replica = one();
    let mut parent = Block::default();
    let mut progress = Certificate::default(); // the genesis certificate
    for number in 1..40 {
        let view = View(number.into());
        let block = Block { name: name(number), parent: parent.name, height: Height(number.into()) };
        let output = replica.propose(block.name).expect("its turn").unsaved();
        let proposal = Content::Proposal(Proposal { view, block, progress: Progress::Block(progress) });
        assert_eq!(written(&output), [&[proposal], &decided_alone(view, block)[..]].concat());
        let [others, host] = [Receiver::Others, Receiver::Host];
        assert_eq!(receivers(&output), [others, others, others, others, host]);
        (parent, progress) = (block, Certificate { view, name: block.name, signers: 1 });
        assert_eq!((replica.view(), replica.tip(), replica.lock()), (View(view.0 + 1), block, progress));
        assert_eq!(replica.held(), []);
    }
}

/// The certificate of its own timeout goes to the leader of the next view: to itself.
#[test]
fn one_replica_times_out_alone() {
    let mut replica = one();
    let first = Block { name: name(1), parent: Name::GENESIS, height: Height(1) };
    let lock = Certificate { view: View(1), name: first.name, signers: 1 };
    let _ = replica.propose(first.name).expect("its turn");
    let output = replica.timer(View(2)).expect("its view").unsaved();
    let high_vote = Some(Vote { view: View(1), name: first.name });
    let own = Timeout { sender: 0, view: View(2), high_vote, weak: false, certificate: lock };
    let [Content::Timeout(timeout), Content::TimeoutCertificate(formed)] = written(&output)[..] else {
        panic!("a timeout and its certificate");
    };
    assert_eq!((timeout, formed.view, formed.timeouts().collect::<Vec<_>>()), (own, View(2), vec![own]));
    assert_eq!(receivers(&output), [Receiver::Others, Receiver::Leader(0)]);
    assert_eq!((replica.view(), replica.timed()), (View(3), View(2)));

    let mut resumed = Replica::restore(&replica.save()).expect("what a call left");
    let second = Block { name: name(2), parent: first.name, height: Height(2) };
    let output = resumed.propose(second.name).expect("its turn").unsaved();
    let contents = written(&output);
    let Content::Proposal(Proposal { view, block, progress: Progress::Timeouts(entry) }) = contents[0] else {
        panic!("a proposal on a timeout certificate");
    };
    assert_eq!((view, block, entry.timeouts().collect::<Vec<_>>()), (View(3), second, vec![own]));
    assert_eq!(contents[1..], decided_alone(View(3), second));
    assert_eq!((resumed.view(), resumed.tip()), (View(4), second));
}
