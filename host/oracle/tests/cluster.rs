//! A cluster in which every record arrives at once: it goes from view to view and releases.

use oracle::{wire, Refusal, Replica, View};

struct Cluster {
    replicas: Vec<Replica>,
    releases: Vec<Vec<[u8; 32]>>,
}

impl Cluster {
    fn open(f: u64, c: u64, k: u64, leaders: &[u8]) -> Cluster {
        let n = 3 * f + 2 * c + k + 1;
        let replicas: Vec<_> = (0..n).map(|own| Replica::open(f, c, k, n, own, leaders).unwrap()).collect();
        Cluster { releases: vec![Vec::new(); replicas.len()], replicas }
    }

    /// Delivers what a replica wrote, and what comes of it, until all is quiet.
    fn deliver(&mut self, from: usize, output: &[u8]) {
        let mut queue: std::collections::VecDeque<(usize, Vec<u8>)> = Default::default();
        queue.extend(wire::records(output).map(|record| (from, record.to_vec())));
        while let Some((from, record)) = queue.pop_front() {
            if wire::kind_of(&record) == wire::kind::RELEASE {
                self.releases[from].push(wire::name_at(&record, 16));
                continue;
            }
            for to in (0..self.replicas.len()).filter(|&to| to != from) {
                let mut out = Vec::new();
                if self.replicas[to].record(&record, &mut out).is_ok() {
                    queue.extend(wire::records(&out).map(|record| (to, record.to_vec())));
                }
            }
        }
    }

    fn propose(&mut self, leader: usize, name: [u8; 32]) -> Result<usize, Refusal> {
        let mut out = Vec::new();
        let reply = self.replicas[leader].propose(name, &mut out);
        self.deliver(leader, &out);
        reply
    }

    fn time_out(&mut self, who: usize, view: u64) {
        let mut out = Vec::new();
        self.replicas[who].timer(View(view), &mut out).unwrap();
        self.deliver(who, &out);
    }
}

/// 01's three, f = 0, 02's ring of ten, and what the bound on k kept out: clusters of one to four, no Byzantine and no
/// stopped replica at all, the highest k.
const SETTINGS: [(u64, u64, u64); 12] = [
    (1, 1, 0),
    (2, 2, 2),
    (7, 5, 0),
    (0, 4, 0),
    (1, 2, 2),
    (2, 0, 1),
    (0, 0, 0),
    (0, 0, 1),
    (0, 1, 0),
    (1, 0, 0),
    (0, 0, 31),
    (1, 0, 28),
];

/// 0 to n−1, one leader for ever, and an uneven list.
fn leader_lists(n: u8) -> [Vec<u8>; 3] {
    [(0..n).collect(), vec![4 % n], [1, 0, 1, 1, 5].map(|number| number % n).to_vec()]
}

#[test]
fn every_view_releases_a_block() {
    for (f, c, k) in SETTINGS {
        for leaders in leader_lists((3 * f + 2 * c + k + 1) as u8) {
            let mut cluster = Cluster::open(f, c, k, &leaders);
            for view in 1..40 {
                let leader = leaders[(view - 1) % leaders.len()];
                cluster.propose(leader.into(), [view as u8; 32]).unwrap();
            }
            let expected: Vec<_> = (1..40).map(|view| [view as u8; 32]).collect();
            assert!(cluster.releases.iter().all(|row| *row == expected), "{f} {c} {k} {leaders:?}");
            assert!(cluster.replicas.iter().all(|replica| replica.counters.view == View(40)));
        }
    }
}

#[test]
fn timeouts_lead_to_the_next_view_and_the_chain_goes_on() {
    for (f, c, k) in SETTINGS {
        let in_turn: Vec<u8> = (0..(3 * f + 2 * c + k + 1) as u8).collect();
        let mut cluster = Cluster::open(f, c, k, &in_turn);
        cluster.propose(0, [1; 32]).unwrap();
        for who in 0..in_turn.len() {
            let counters = cluster.replicas[who].counters;
            if counters.view == View(2) && counters.timed < View(2) {
                cluster.time_out(who, 2);
            }
        }
        assert!(cluster.replicas.iter().all(|replica| replica.counters.view == View(3)), "{f} {c} {k}");
        cluster.propose(2 % in_turn.len(), [3; 32]).unwrap();
        assert!(cluster.releases.iter().all(|row| *row == [[1; 32], [3; 32]]), "{f} {c} {k}");
    }
}
