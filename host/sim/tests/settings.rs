//! Every settings that opening takes, over the oracle and over the proved library.

use std::collections::{BTreeSet, VecDeque};
use std::rc::Rc;

use oracle::wire::{self, kind};
use oracle::{members, Faults, Leaders, Name, Protocol, Replica, Settings};
use sim::{settings, Cluster, Core, Family, Outcome, Proved, Random, Row};

const A: Name = [b'A'; 32];
const B: Name = [b'B'; 32];

#[test]
fn each_is_of_one_family() {
    let sizes = Family::ALL.map(|family| family.settings().len());
    assert_eq!(sizes, [1, 272, 450, 414]);
    assert_eq!(Settings::all().len(), 1_137);
    let in_bound = |f, c, k| Family::of(Settings::new(f, c, k).unwrap()) == Family::InBound;
    assert!(in_bound(1, 1, 0) && in_bound(2, 2, 2) && in_bound(7, 5, 0)); // 01's table
    assert!(!in_bound(2, 0, 1) && !in_bound(2, 2, 3) && !in_bound(2, 1, 3)); // 01 refused them
}

#[test]
fn clusters_of_every_size_are_drawn() {
    let all = Settings::all();
    let mut random = Random::new(1);
    let drawn: BTreeSet<u32> = (0..1_000).map(|_| settings::draw(&all, &mut random).n()).collect();
    assert_eq!(drawn, (1..=32).collect());
}

/// A network without faults between the replicas that run; the others are silent.
struct Good<C: Core> {
    cluster: Cluster<C>,
    running: u64,
    /// Whether commits arrive.
    commits: bool,
}

impl<C: Core> Good<C> {
    /// The first so many replicas run, and 0 leads every view.
    fn open(options: C::Options, settings: Settings, running: u32, commits: bool) -> Good<C> {
        let protocol = Protocol::new(settings, Faults::NONE);
        let leaders = Leaders::new(&[0], settings).expect("a list that is taken");
        let cluster = Cluster::open(options, protocol, leaders, 0);
        Good { cluster, running: (1 << running) - 1, commits }
    }

    /// What came of a call on this replica reaches all that run, and what comes of that.
    fn exchange(&mut self, replica: usize, outcome: Outcome) {
        assert_eq!(outcome, Outcome::Accepted);
        let mut waiting: VecDeque<(usize, Rc<[u8]>)> = self.sent_by(replica).collect();
        while let Some((from, record)) = waiting.pop_front() {
            for to in members(self.running & !(1 << from)) {
                if self.cluster.record(to, &record) == Outcome::Accepted {
                    waiting.extend(self.sent_by(to));
                }
            }
        }
    }

    fn sent_by(&mut self, replica: usize) -> impl Iterator<Item = (usize, Rc<[u8]>)> {
        let commits = self.commits;
        let arrives = move |record: &Rc<[u8]>| commits || wire::kind_of(record) != kind::COMMIT;
        std::mem::take(&mut self.cluster.sent).into_iter().filter(arrives).map(move |record| (replica, record))
    }

    fn propose(&mut self, name: Name) {
        let outcome = self.cluster.propose(0, name);
        self.exchange(0, outcome);
    }

    /// The clocks of all that run and are still in this view run out.
    fn time_out(&mut self, view: u64) {
        for replica in members(self.running) {
            if self.cluster.view(replica) == view && self.cluster.replica(replica).timed() < view {
                let outcome = self.cluster.timer(replica, view);
                self.exchange(replica, outcome);
            }
        }
    }

    /// All that run have released these blocks, and stand in this view.
    fn assert_all(&self, view: u64, released: &[Name]) {
        for replica in members(self.running) {
            let settings = self.cluster.protocol().settings;
            assert_eq!(self.cluster.rows().row(replica), released, "{settings:?}, replica {replica}");
            assert_eq!(self.cluster.view(replica), view, "{settings:?}, replica {replica}");
        }
    }
}

/// f and c replicas are silent: n−f−c are left for every quorum. A is released; the next view ends by timeouts, and in
/// the one after B is released on A.
fn goes_on<C: Core>(options: C::Options, settings: Settings) {
    let mut good: Good<C> = Good::open(options, settings, settings.timeout_quorum(), true);
    good.propose(A);
    good.assert_all(2, &[A]);
    good.time_out(2);
    good.assert_all(3, &[A]);
    good.propose(B);
    good.assert_all(4, &[A, B]);
}

/// p replicas are silent, and no commit arrives: the votes decide.
fn releases_fast<C: Core>(options: C::Options, settings: Settings) {
    let mut good: Good<C> = Good::open(options, settings, settings.fast_quorum(), false);
    good.propose(A);
    good.assert_all(2, &[A]);
    let coverage = &good.cluster.coverage;
    assert_eq!(coverage.count(Row::SlowRelease), 0, "{settings:?}");
    // One's own commit alone decides too where a slow release takes no other.
    let by_votes = if settings.slow_quorum() == 1 { Row::BothReleases } else { Row::FastRelease };
    assert_eq!(coverage.count(by_votes), u64::from(settings.fast_quorum()), "{settings:?}");
}

#[test]
fn all_go_on_with_f_and_c_silent() {
    for settings in Settings::all() {
        goes_on::<Replica>(Faults::NONE, settings);
    }
}

#[test]
fn all_release_fast_with_p_silent() {
    for settings in Settings::all() {
        releases_fast::<Replica>(Faults::NONE, settings);
    }
}

#[test]
fn the_library_does_both() {
    for settings in Settings::all() {
        goes_on::<Proved>((), settings);
        releases_fast::<Proved>((), settings);
    }
}
