//! Runs in which every block comes with its contents, some tampered with: honest replicas refuse them, no name has two
//! parents, and nobody has to see to that.

use oracle::{wire, Block, Faults, Height, Leaders, Name, Protocol, Replica, View, GENESIS};
use sim::{settings, Cluster, Core, Coverage, Family, Names, Naming, Outcome, Plan, Proved, Row, Style};

fn plan<C: Core>(options: C::Options, family: Family, calls: u64) -> Plan<C> {
    let (style, names) = (Style::Both, Names::ByContents);
    let settings = family.settings();
    Plan { options, faults: Faults::NONE, settings, leaders: None, seed: 31, calls, longest: None, style, names }
}

/// Runs over all settings, each on one chain; the cluster itself asserts that names are digests.
fn play<C: Core>(options: C::Options, calls: u64) -> Coverage {
    let mut coverage = Coverage::default();
    for family in Family::ALL {
        plan::<C>(options, family, calls).play(&mut coverage).expect("one chain");
    }
    coverage
}

#[test]
fn checked_runs_are_one_chain_on_both() {
    let library = play::<Proved>((), 100_000);
    println!("{library}");
    assert_eq!(library.to_string(), play::<Replica>(Faults::NONE, 100_000).to_string());
    assert_eq!(library.count(Row::ByContents), library.count(Row::Runs));
    for row in [Row::OtherContents, Row::NoBytes, Row::LongContents, Row::ContentsBeside, Row::TakenName] {
        assert!(library.count(row) > 100, "{} times {row:?}", library.count(row));
    }
    assert!(library.count(Row::RuleD) > 1_000, "{} walks", library.count(Row::RuleD));
    assert_eq!(library.empty_rows(), ["answer 2"]);
}

/// 16 whatever the contents come with, 17 for what brings a block and nothing else.
#[test]
fn blocks_alone_are_refused_for_their_name() {
    let coverage = play::<Proved>((), 100_000);
    for heading in ["vote", "commit", "blockc", "timeout", "timeoutc", "proposal", "block", "propose"] {
        assert!(coverage.answered_to(heading, 16) > 0, "{heading}");
        let brings_a_block = ["proposal", "block", "propose"].contains(&heading);
        assert_eq!(coverage.answered_to(heading, 17) > 0, brings_a_block, "{heading}");
    }
    assert_eq!(coverage.answered_to("timer", 16) + coverage.answered_to("timer", 17), 0);
}

/// Replica 0 lies: a name with other contents, and contents by another name.
fn lie<C: Core>(options: C::Options) {
    let (settings, naming) = (settings::six(), Naming::by_contents());
    let protocol = Protocol::new(settings, Faults::NONE);
    let mut cluster: Cluster<C> = Cluster::open(options, protocol, Leaders::in_turn(settings), 1).named(&naming);
    let named = |contents: &[u8]| oracle::block_name(GENESIS, Height(1), contents).expect("a name");
    let (a, b): (Name, Name) = (named(b"A"), named(b"B"));
    for (name, contents) in [(a, b"B"), (b, b"A"), ([7; 32], b"A")] {
        assert_eq!(cluster.record_with(1, &proposal(name), contents), Outcome::Refused(17));
        assert_eq!(cluster.record_with(1, &block(name, GENESIS, 1), contents), Outcome::Refused(17));
    }
    assert_eq!(cluster.record_with(1, &proposal(a), b"A"), Outcome::Accepted);
    assert_eq!(cluster.record_with(2, &proposal(b), b"B"), Outcome::Accepted);
    // Held as it is, and then by a name of its own on another parent.
    assert_eq!(cluster.record_with(1, &block(a, GENESIS, 1), b"B"), Outcome::Refused(17));
    assert_eq!(cluster.record_with(1, &block(a, GENESIS, 1), b"A"), Outcome::Refused(10));
    assert_eq!(cluster.record_with(2, &block(a, b, 2), b"A"), Outcome::Refused(17));
}

fn proposal(name: Name) -> Vec<u8> {
    let (mut record, mut genesis) = (Vec::new(), Vec::new());
    wire::write_block_certificate(&mut genesis, 0, &oracle::Certificate::GENESIS);
    wire::write_proposal(&mut record, 0, View(1), &Block { name, parent: GENESIS, height: Height(1) }, &genesis);
    record
}

fn block(name: Name, parent: Name, height: u64) -> Vec<u8> {
    let mut record = Vec::new();
    wire::write_block(&mut record, 0, &Block { name, parent, height: Height(height) });
    record
}

#[test]
fn a_liar_is_refused() {
    lie::<Proved>(());
    lie::<Replica>(Faults::NONE);
}

/// Replicas that take blocks without a look at their contents.
#[derive(Clone)]
struct Careless(Replica);

impl Core for Careless {
    type Options = Faults;

    fn open(faults: Faults, f: u64, c: u64, k: u64, n: u64, own: u64, leaders: &[u8]) -> Result<Self, u16> {
        <Replica as Core>::open(faults, f, c, k, n, own, leaders).map(Careless)
    }

    fn record_with(&mut self, bytes: &[u8], _: &[u8], output: &mut Vec<u8>) -> u16 {
        self.record(bytes, output)
    }

    fn propose_with(&mut self, name: Name, _: &[u8], output: &mut Vec<u8>) -> u16 {
        self.propose(name, output)
    }

    fn propose_contents(&mut self, contents: &[u8], output: &mut Vec<u8>) -> u16 {
        Core::propose_contents(&mut self.0, contents, output)
    }

    fn record(&mut self, bytes: &[u8], output: &mut Vec<u8>) -> u16 {
        Core::record(&mut self.0, bytes, output)
    }

    fn timer(&mut self, view: u64, output: &mut Vec<u8>) -> u16 {
        Core::timer(&mut self.0, view, output)
    }

    fn propose(&mut self, name: Name, output: &mut Vec<u8>) -> u16 {
        Core::propose(&mut self.0, name, output)
    }

    fn view(&self) -> u64 {
        self.0.view()
    }

    fn timed(&self) -> u64 {
        self.0.timed()
    }

    fn height(&self) -> u64 {
        self.0.height()
    }
}

#[test]
#[should_panic(expected = "a block was taken whose name isn't the digest")]
fn a_careless_replica_is_noticed() {
    play::<Careless>(Faults::NONE, 10_000);
}
