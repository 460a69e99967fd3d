//! What a replica keeps by view: votes, commits, timeouts, and the certificate by which it entered its view.

use crate::settings::Settings;
use crate::types::{Name, View, GENESIS};
use crate::wire::{self, RawTimeout};

/// Views from `low` to `high`, none if `high < low`.
#[derive(Clone, Copy, Debug, PartialEq, Eq)]
pub struct Window {
    pub low: u64,
    pub high: u64,
}

impl Window {
    /// Of votes and commits. 01: "for views view−4 (at least 1) to view+3"; no view of 2^62 is kept.
    pub fn of_votes(view: View) -> Window {
        Window { low: view.0.saturating_sub(4).max(1), high: Self::end(view) }
    }

    /// Of timeouts. 01: "timeouts for view to view+3".
    pub fn of_timeouts(view: View) -> Window {
        Window { low: view.0, high: Self::end(view) }
    }

    fn end(view: View) -> u64 {
        (view.0 + 3).min(View::MAX.0 - 1)
    }

    pub fn views(self) -> impl Iterator<Item = View> {
        (self.low..=self.high).map(View)
    }
}

/// The numbers of a signer set, ascending.
pub fn members(mut set: u64) -> impl Iterator<Item = usize> {
    std::iter::from_fn(move || {
        let lowest = set.trailing_zeros() as usize;
        set &= set.wrapping_sub(1);
        (lowest < 64).then_some(lowest)
    })
}

/// One view's votes or commits: who gave one, and for which name. Names of others are left over and mean nothing.
#[derive(Clone, Debug)]
pub struct Ballots {
    pub given: u64,
    pub names: [Name; Settings::MAX_N],
}

impl Ballots {
    const EMPTY: Ballots = Ballots { given: 0, names: [GENESIS; Settings::MAX_N] };

    pub fn get(&self, replica: u16) -> Option<&Name> {
        let name = self.names.get(usize::from(replica))?;
        (self.given >> replica & 1 == 1).then_some(name)
    }

    /// The first one stays.
    pub fn put(&mut self, replica: u16, name: Name) {
        if self.get(replica).is_none() {
            self.given |= 1 << replica;
            self.names[usize::from(replica)] = name;
        }
    }

    /// Those of `replicas` that gave this name.
    pub fn backers(&self, replicas: u64, name: &Name) -> u64 {
        members(self.given & replicas).filter(|&i| self.names[i] == *name).fold(0, |set, i| set | 1 << i)
    }

    /// The names that `wanted` takes and that a quorum of `replicas` gave, each once, with all who gave it.
    /// A name with a quorum stands among any `given − quorum + 1` ballots: only that many are tried.
    pub fn backed<'a>(
        &'a self,
        replicas: u64,
        quorum: u32,
        wanted: impl Fn(&Name) -> bool + 'a,
    ) -> impl Iterator<Item = (Name, u64)> + 'a {
        let given = self.given & replicas;
        let tries = (given.count_ones() + 1).saturating_sub(quorum);
        let mut counted = 0;
        members(given).take(tries as usize).filter_map(move |i| {
            let name = &self.names[i];
            if counted >> i & 1 == 1 || !wanted(name) {
                return None;
            }
            let backers = self.backers(given, name);
            counted |= backers;
            (backers.count_ones() >= quorum).then_some((*name, backers))
        })
    }
}

/// Left over names don't count.
impl PartialEq for Ballots {
    fn eq(&self, other: &Ballots) -> bool {
        self.given == other.given && members(self.given & (u64::MAX >> 32)).all(|i| self.names[i] == other.names[i])
    }
}

impl Eq for Ballots {}

/// Votes or commits of the eight views of a window; view v stands in row v mod 8.
#[derive(Clone, Debug, PartialEq, Eq)]
pub struct BallotRows {
    pub rows: [Ballots; 8],
}

impl BallotRows {
    pub const EMPTY: BallotRows = BallotRows { rows: [Ballots::EMPTY; 8] };

    pub fn row(&self, view: View) -> &Ballots {
        &self.rows[(view.0 % 8) as usize]
    }

    pub fn row_mut(&mut self, view: View) -> &mut Ballots {
        &mut self.rows[(view.0 % 8) as usize]
    }

    /// 01: "What leaves a window is dropped." Empties the rows of the views that come in; their bytes become zero.
    pub fn advance(&mut self, from: View, to: View) {
        for back in 0..(to.0 - from.0).min(8) {
            *self.row_mut(View(to.0 + 3 - back)) = Ballots::EMPTY;
        }
    }
}

/// One view's timeouts as bytes. Those not in `given` are left over and mean nothing.
#[derive(Clone, Debug)]
pub struct KeptTimeouts {
    pub given: u64,
    pub raw: [RawTimeout; Settings::MAX_N],
}

impl KeptTimeouts {
    const EMPTY: KeptTimeouts = KeptTimeouts { given: 0, raw: [[0; wire::TIMEOUT]; Settings::MAX_N] };

    pub fn get(&self, replica: u16) -> Option<&RawTimeout> {
        let raw = self.raw.get(usize::from(replica))?;
        (self.given >> replica & 1 == 1).then_some(raw)
    }

    /// The first one stays.
    pub fn put(&mut self, replica: u16, timeout: &RawTimeout) {
        if self.get(replica).is_none() {
            self.given |= 1 << replica;
            self.raw[usize::from(replica)] = *timeout;
        }
    }
}

/// Left over bytes don't count.
impl PartialEq for KeptTimeouts {
    fn eq(&self, other: &KeptTimeouts) -> bool {
        self.given == other.given && members(self.given & (u64::MAX >> 32)).all(|i| self.raw[i] == other.raw[i])
    }
}

impl Eq for KeptTimeouts {}

/// Timeouts of the four views of a window; view v stands in row v mod 4.
#[derive(Clone, Debug, PartialEq, Eq)]
pub struct TimeoutRows {
    pub rows: [KeptTimeouts; 4],
}

impl TimeoutRows {
    pub const EMPTY: TimeoutRows = TimeoutRows { rows: [KeptTimeouts::EMPTY; 4] };

    pub fn row(&self, view: View) -> &KeptTimeouts {
        &self.rows[(view.0 % 4) as usize]
    }

    pub fn row_mut(&mut self, view: View) -> &mut KeptTimeouts {
        &mut self.rows[(view.0 % 4) as usize]
    }

    pub fn advance(&mut self, from: View, to: View) {
        for back in 0..(to.0 - from.0).min(4) {
            *self.row_mut(View(to.0 + 3 - back)) = KeptTimeouts::EMPTY;
        }
    }
}

/// 01: "It keeps the certificate by which it entered its view": a whole record of kind 3 or 6, own as sender.
#[derive(Clone, Debug)]
pub struct EntryCertificate {
    len: usize,
    bytes: [u8; Self::MOST],
}

impl EntryCertificate {
    /// The longest one: a timeout certificate of the largest cluster.
    pub const MOST: usize = wire::TIMEOUT_CERTIFICATE + wire::TIMEOUT * Settings::MAX_N;

    pub(crate) const EMPTY: EntryCertificate = EntryCertificate { len: 0, bytes: [0; Self::MOST] };

    /// One of this length in a place of these bytes, the left over ones behind it included; one longer than the place
    /// is kept as none.
    pub fn of(len: usize, bytes: [u8; Self::MOST]) -> EntryCertificate {
        EntryCertificate { len: if len <= Self::MOST { len } else { 0 }, bytes }
    }

    pub fn record(&self) -> &[u8] {
        &self.bytes[..self.len]
    }

    /// All bytes of its place.
    pub fn place(&self) -> &[u8; Self::MOST] {
        &self.bytes
    }

    /// Keeps this record; one longer than any certificate is kept as none.
    pub fn set(&mut self, record: &[u8]) {
        self.len = 0;
        if let Some(place) = self.bytes.get_mut(..record.len()) {
            place.copy_from_slice(record);
            self.len = record.len();
        }
    }

    /// What refusal 2 asks of it: kind 3 with its length, or kind 6 with at most n timeouts and its length.
    pub fn is_sound(&self, n: u32) -> bool {
        if self.len < wire::TIMEOUT_CERTIFICATE {
            return false;
        }
        let bytes = self.record();
        match wire::kind_of(bytes) {
            wire::kind::BLOCK_CERTIFICATE => self.len == wire::BLOCK_CERTIFICATE,
            wire::kind::TIMEOUT_CERTIFICATE => {
                let count = usize::from(wire::u16_at(bytes, 16));
                count <= n as usize && self.len == wire::TIMEOUT_CERTIFICATE + wire::TIMEOUT * count
            }
            _ => false,
        }
    }
}

impl PartialEq for EntryCertificate {
    fn eq(&self, other: &EntryCertificate) -> bool {
        self.record() == other.record()
    }
}

impl Eq for EntryCertificate {}
