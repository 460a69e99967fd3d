//! Settings of a cluster and the quorums that follow from them.

use crate::faults::Faults;

/// Settings that opening takes. 01: "A ring has n = 3f + 2c + k + 1 boxes, numbered 0 to n−1, n at most 32."
#[derive(Clone, Copy, Debug, PartialEq, Eq)]
pub struct Settings {
    f: u32,
    c: u32,
    k: u32,
}

impl Settings {
    /// The largest cluster.
    pub const MAX_N: usize = 32;

    /// None where n is over 32. 02, 2.2: "From now on every k ≥ 0 is taken as long as n is at most 32".
    pub fn new(f: u64, c: u64, k: u64) -> Option<Settings> {
        let most = Self::MAX_N as u64;
        if f > most || c > most || k > most {
            return None; // n would be over 32; keeps the sums below small
        }
        let taken = 3 * f + 2 * c + k < most;
        taken.then_some(Settings { f: f as u32, c: c as u32, k: k as u32 })
    }

    /// All that opening takes.
    pub fn all() -> Vec<Settings> {
        let most = Self::MAX_N as u64;
        let triples = (0..most).flat_map(|f| (0..most).flat_map(move |c| (0..most).map(move |k| (f, c, k))));
        triples.filter_map(|(f, c, k)| Settings::new(f, c, k)).collect()
    }

    /// Whether 01's bound kept them out: "k ≤ 2f+c−4 for even c, k ≤ 2f+c−3 for odd c". By 02, 2.2 it is gone.
    pub const fn is_above_bound(self) -> bool {
        self.k + 4 > 2 * self.f + self.c + self.c % 2
    }

    /// Byzantine replicas that the cluster bears.
    pub const fn f(self) -> u32 {
        self.f
    }

    /// Stopped replicas that it bears beside them.
    pub const fn c(self) -> u32 {
        self.c
    }

    pub const fn k(self) -> u32 {
        self.k
    }

    pub const fn n(self) -> u32 {
        3 * self.f + 2 * self.c + self.k + 1
    }

    /// 01: "p is (c+k)/2 rounded down."
    pub const fn p(self) -> u32 {
        (self.c + self.k) / 2
    }

    /// For a block certificate. 02, 2.4: "the slow release's number plus (k+1)/2 rounded down, without a branch"
    #[allow(clippy::manual_div_ceil)] // which asks whether there is a remainder
    pub const fn block_quorum(self) -> u32 {
        self.slow_quorum() + (self.k + 1) / 2
    }

    /// 01: "weak certificate: f+p+1"
    pub const fn weak_quorum(self) -> u32 {
        self.f + self.p() + 1
    }

    /// 01: "timeout certificate: n−f−c"
    pub const fn timeout_quorum(self) -> u32 {
        self.n() - self.f - self.c
    }

    /// 01: "slow release: 2f+c+1 commits"
    pub const fn slow_quorum(self) -> u32 {
        2 * self.f + self.c + 1
    }

    /// 01: "fast release: n−p votes"
    pub const fn fast_quorum(self) -> u32 {
        self.n() - self.p()
    }

    /// The signer set of all replicas.
    pub const fn everyone(self) -> u64 {
        (1 << self.n()) - 1
    }
}

/// The five quorums as a replica counts with them.
#[derive(Clone, Copy, Debug, PartialEq, Eq)]
pub struct Quorums {
    pub block: u32,
    pub weak: u32,
    pub timeout: u32,
    pub slow: u32,
    pub fast: u32,
}

impl Quorums {
    /// 01's quorums where no fault is set. Faults leave none below 1: B with a quorum of 0 would run for ever.
    pub fn new(settings: Settings, faults: Faults) -> Quorums {
        // With p from c+k+2 instead of c+k, p is one higher.
        let p_over = u32::from(faults.p_from_c_k_2);
        let lowered = |quorum: u32, by: u32| quorum.saturating_sub(by).max(1);
        Quorums {
            block: lowered(settings.block_quorum(), faults.block_quorum_lower.into()),
            weak: lowered(settings.weak_quorum() + p_over, faults.weak_quorum_lower.into()),
            timeout: lowered(settings.timeout_quorum(), faults.timeout_quorum_lower.into()),
            slow: lowered(settings.slow_quorum(), faults.slow_quorum_lower.into()),
            fast: lowered(settings.fast_quorum(), p_over + u32::from(faults.fast_quorum_lower)),
        }
    }
}

/// By what a replica counts and ranks: settings, the errors it makes, and the quorums that come of both.
#[derive(Clone, Copy, Debug, PartialEq, Eq)]
pub struct Protocol {
    pub settings: Settings,
    pub faults: Faults,
    pub quorums: Quorums,
}

impl Protocol {
    pub fn new(settings: Settings, faults: Faults) -> Protocol {
        Protocol { settings, faults, quorums: Quorums::new(settings, faults) }
    }
}
