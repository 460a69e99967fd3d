//! Records made wrong: one rule broken on purpose, or bytes damaged at random.

use oracle::{members, wire, BallotRows, Name, Refusal, View, Vote, Window};

use crate::good::{record, Maker};

/// Where a proposal's certificate begins.
const INNER: usize = wire::PROPOSAL;

fn put_u16(record: &mut [u8], at: usize, number: u16) {
    if let Some(place) = record.get_mut(at..at + 2) {
        place.copy_from_slice(&number.to_le_bytes());
    }
}

fn put_u32(record: &mut [u8], at: usize, number: u32) {
    if let Some(place) = record.get_mut(at..at + 4) {
        place.copy_from_slice(&number.to_le_bytes());
    }
}

fn put_u64(record: &mut [u8], at: usize, number: u64) {
    if let Some(place) = record.get_mut(at..at + 8) {
        place.copy_from_slice(&number.to_le_bytes());
    }
}

fn put_name(record: &mut [u8], at: usize, name: Name) {
    if let Some(place) = record.get_mut(at..at + 32) {
        place.copy_from_slice(&name);
    }
}

/// Where the timeouts of a record of kind 6 or 7 begin; none if it has none.
fn timeouts_at(record: &[u8]) -> Option<(usize, usize)> {
    let certificate = match wire::kind_of(record) {
        wire::kind::TIMEOUT_CERTIFICATE => 0,
        wire::kind::PROPOSAL if wire::u16_at(record, INNER + 4) == wire::kind::TIMEOUT_CERTIFICATE => INNER,
        _ => return None,
    };
    let first = certificate + wire::TIMEOUT_CERTIFICATE;
    Some((first, (record.len() - first) / wire::TIMEOUT))
}

impl Maker<'_> {
    /// Breaks a record that was good: mostly one rule, else bytes at random. At times two rules at once: then the
    /// earlier answers.
    pub fn spoil(&mut self, record: &mut Vec<u8>) {
        self.spoil_once(record);
        let still_cut_right = wire::shape(record, self.settings().n()) != Err(Refusal::Length);
        if still_cut_right && self.random.chance(15) {
            self.spoil_once(record);
        }
    }

    fn spoil_once(&mut self, record: &mut Vec<u8>) {
        match self.random.below(42) {
            0..2 => self.spoil_length(record),
            2..4 => self.spoil_kind(record),
            4..8 => self.spoil_sender(record),
            8..14 => self.spoil_view(record),
            14..16 => self.spoil_name(record),
            16..19 => self.spoil_signers(record),
            19..23 => self.spoil_timeouts(record),
            23..26 => self.spoil_fields(record),
            26..34 => self.repeat(record),
            34..40 => self.spoil_chain(record),
            _ => self.damage(record),
        }
    }

    fn spoil_length(&mut self, record: &mut Vec<u8>) {
        let length = record.len() as u32;
        match self.random.below(5) {
            0 => record.truncate(self.random.index(record.len())),
            1 => record.push(self.random.number() as u8),
            2 => {
                record.push(0);
                put_u32(record, 0, length + 1);
            }
            3 => {
                let cut = self.random.index(record.len());
                record.truncate(cut);
                put_u32(record, 0, cut as u32); // a count or an inner record no longer fits
            }
            _ => {
                let field = [0, 7, 8, length - 1, length + 1, u32::MAX];
                put_u32(record, 0, self.random.pick(&field));
            }
        }
    }

    fn spoil_kind(&mut self, record: &mut [u8]) {
        let kind = if self.random.chance(80) { self.random.below(14) as u16 } else { self.random.number() as u16 };
        match (wire::kind_of(record), timeouts_at(record)) {
            (wire::kind::TIMEOUT, _) if self.random.chance(70) => put_u16(record, 56, kind),
            (_, Some((first, count))) if count > 0 && self.random.chance(60) => {
                let at = first + wire::TIMEOUT * self.random.index(count);
                let field = self.random.pick(&[at + 4, at + 56]);
                put_u16(record, field, kind);
            }
            (wire::kind::PROPOSAL, _) if self.random.chance(70) => put_u16(record, INNER + 4, kind),
            _ => put_u16(record, 4, kind),
        }
    }

    fn spoil_sender(&mut self, record: &mut [u8]) {
        let n = self.settings().n() as u16;
        let senders = [self.replica.own(), n, n + 1, u16::MAX, self.any_replica()];
        let sender = self.random.pick(&senders);
        let is_proposal = wire::kind_of(record) == wire::kind::PROPOSAL;
        if !is_proposal || self.random.chance(70) {
            put_u16(record, 6, sender);
        }
        if is_proposal && self.random.chance(70) {
            put_u16(record, INNER + 6, sender);
        }
    }

    /// A view that lies at or beyond some limit.
    pub fn odd_view(&mut self) -> u64 {
        let view = self.view();
        let window = Window::of_votes(View(view));
        match self.random.below(12) {
            0 => 0,
            1 => window.low.saturating_sub(1),
            2 => window.high + 1,
            3 => view - 1,
            4 => view + 1,
            5 => view + 4,
            6 => View::MAX.0,
            7 if self.jumps => View::MAX.0 - 1,
            8 => View::MAX.0 + self.random.below(64),
            9 => u64::MAX,
            10 => self.random.number(),
            _ => self.random.between(view.saturating_sub(9), view + 9),
        }
    }

    fn spoil_view(&mut self, record: &mut [u8]) {
        let view = self.odd_view();
        put_u64(record, 8, view);
        match wire::kind_of(record) {
            wire::kind::TIMEOUT_CERTIFICATE if self.random.chance(80) => set_timeout_views(record, view),
            wire::kind::PROPOSAL => self.fit_proposal(record, view),
            _ => {}
        }
    }

    /// Makes the view's leader the sender, and at times the inner views fit.
    fn fit_proposal(&mut self, record: &mut [u8], view: u64) {
        if view > 0 && self.random.chance(85) {
            let leader = self.replica.leader(View(view));
            put_u16(record, 6, leader);
            put_u16(record, INNER + 6, leader);
        }
        if self.random.chance(40) {
            put_u64(record, INNER + 8, view.wrapping_sub(1));
            set_timeout_views(record, view.wrapping_sub(1));
        }
    }

    fn spoil_name(&mut self, record: &mut [u8]) {
        let at = match wire::kind_of(record) {
            wire::kind::BLOCK => 8,
            wire::kind::TIMEOUT => self.random.pick(&[24, 72]),
            _ => 16,
        };
        put_name(record, at, oracle::GENESIS);
    }

    /// A signer outside the cluster, too few signers, or none.
    fn spoil_signers(&mut self, record: &mut [u8]) {
        let at = match (wire::kind_of(record), timeouts_at(record)) {
            (wire::kind::BLOCK_CERTIFICATE, _) => 48,
            (wire::kind::TIMEOUT, _) => 104,
            (_, Some((first, count))) if count > 0 => first + wire::TIMEOUT * self.random.index(count) + 104,
            (wire::kind::PROPOSAL, _) => INNER + 48,
            _ => return self.spoil_sender(record),
        };
        let n = self.settings().n();
        let few = self.random.below(u64::from(self.replica.protocol().quorums.block)) as u32;
        let signers = match self.random.below(3) {
            0 => 1 << self.random.between(n.into(), 63),
            _ => self.random.subset(self.settings().everyone(), few),
        };
        put_u64(record, at, signers);
    }

    /// Inner timeouts in a wrong order, of another view, too few, or not good.
    fn spoil_timeouts(&mut self, record: &mut Vec<u8>) {
        let Some((first, count)) = timeouts_at(record).filter(|(_, count)| *count > 0) else {
            return self.spoil_fields(record);
        };
        let one = first + wire::TIMEOUT * self.random.index(count);
        match self.random.below(7) {
            0 => put_u16(record, one + 6, self.random.below(34) as u16),
            1 => put_u64(record, one + 8, self.odd_view()),
            2 => put_u16(record, one + 56, wire::kind::WEAK_CERTIFICATE),
            3 => put_u64(record, one + 64, self.odd_view()),
            4 => put_u64(record, one + 16, self.odd_view()),
            5 => put_u32(record, one, self.random.pick(&[48, 111, 113, 0])),
            _ => self.drop_timeouts(record, first, count),
        }
    }

    /// Leaves the record well formed with fewer timeouts.
    fn drop_timeouts(&mut self, record: &mut Vec<u8>, first: usize, count: usize) {
        let left = self.random.index(count);
        record.truncate(first + wire::TIMEOUT * left);
        put_u16(record, first - 8, left as u16);
        put_u32(record, first - wire::TIMEOUT_CERTIFICATE, (wire::TIMEOUT_CERTIFICATE + wire::TIMEOUT * left) as u32);
        let length = record.len() as u32;
        put_u32(record, 0, length);
    }

    /// Padding, and a timeout's high vote and certificate.
    fn spoil_fields(&mut self, record: &mut [u8]) {
        match wire::kind_of(record) {
            wire::kind::TIMEOUT => match self.random.below(4) {
                0 => record[58 + self.random.index(6)] = 1 + self.random.below(255) as u8,
                1 => put_u64(record, 16, self.odd_view()),
                2 => put_u64(record, 64, self.odd_view()),
                _ => put_u16(record, 56, self.random.pick(&[3, 4])),
            },
            wire::kind::TIMEOUT_CERTIFICATE => record[18 + self.random.index(6)] = 1,
            wire::kind::PROPOSAL => put_u64(record, INNER + 8, self.odd_view()),
            _ => self.damage(record),
        }
    }

    /// What was taken before, the same or another in its place.
    fn repeat(&mut self, record: &mut Vec<u8>) {
        let again = match wire::kind_of(record) {
            wire::kind::VOTE => self.kept_ballot(&self.replica.memory.votes, wire::write_vote),
            wire::kind::COMMIT => self.kept_ballot(&self.replica.memory.commits, wire::write_commit),
            wire::kind::BLOCK_CERTIFICATE => Some(self.lock_again()),
            wire::kind::TIMEOUT => self.kept_timeout(),
            wire::kind::PROPOSAL => self.voted_proposal(),
            wire::kind::BLOCK => self.held_again(),
            _ => None,
        };
        match again {
            Some(again) => *record = again,
            None => self.spoil_view(record),
        }
    }

    fn kept_ballot(&mut self, rows: &BallotRows, write: fn(&mut Vec<u8>, u16, Vote)) -> Option<Vec<u8>> {
        let window = Window::of_votes(View(self.view()));
        let others = self.settings().everyone() & !(1 << self.replica.own());
        let kept: Vec<(View, usize)> = window
            .views()
            .flat_map(|view| members(rows.row(view).given & others).map(move |sender| (view, sender)))
            .collect();
        if kept.is_empty() {
            return None;
        }
        let (view, sender) = self.random.pick(&kept);
        let same = rows.row(view).names[sender];
        let name = if self.random.chance(50) { same } else { self.held_or_fresh() };
        Some(record(|out| write(out, sender as u16, Vote { view, name })))
    }

    fn held_or_fresh(&mut self) -> Name {
        let held = self.held_block().name;
        if held == oracle::GENESIS {
            self.fresh_name()
        } else {
            held
        }
    }

    fn lock_again(&mut self) -> Vec<u8> {
        let mut lock = self.replica.counters.lock;
        if lock.view > View(1) && self.random.chance(50) {
            lock.view = View(lock.view.0 - 1);
        }
        let sender = self.any_replica();
        record(|out| wire::write_block_certificate(out, sender, &lock))
    }

    fn kept_timeout(&mut self) -> Option<Vec<u8>> {
        let own = self.replica.own();
        let window = Window::of_timeouts(View(self.view()));
        let kept: Vec<_> = window
            .views()
            .flat_map(|view| {
                let row = self.replica.memory.timeouts.row(view);
                members(row.given & self.settings().everyone() & !(1 << own)).map(move |sender| row.raw[sender])
            })
            .collect();
        if kept.is_empty() {
            return None;
        }
        let mut timeout = self.random.pick(&kept).to_vec();
        if self.random.chance(50) {
            let mut changed = wire::read_timeout(&timeout);
            changed.high_vote = Vote { view: View(1), name: self.fresh_name() };
            timeout = record(|out| wire::write_timeout(out, &changed));
        }
        Some(timeout)
    }

    /// A proposal of the current view after the vote in it, for the same name or another.
    fn voted_proposal(&mut self) -> Option<Vec<u8>> {
        let high_vote = self.replica.counters.high_vote;
        let view = self.view();
        if view == View::MAX.0 || self.replica.leader(View(view)) == self.replica.own() {
            return None;
        }
        let mut proposal = self.proposal_in(view);
        match self.random.below(3) {
            0 if high_vote.view.0 == view => put_name(&mut proposal, 16, high_vote.name),
            1 => put_name(&mut proposal, 16, self.held_or_fresh()), // a held name with another parent or height
            _ => {}
        }
        Some(proposal)
    }

    /// A held block, the same or with another parent or height.
    fn held_again(&mut self) -> Option<Vec<u8>> {
        let mut block = self.held_block();
        match self.random.below(4) {
            0 => block.height.0 = block.height.0.wrapping_add(1),
            1 => block.parent = self.fresh_name(),
            _ => {}
        }
        let sender = self.any_replica();
        (block.name != oracle::GENESIS).then(|| record(|out| wire::write_block(out, sender, &block)))
    }

    /// An unknown parent or safe block, another parent, another height.
    fn spoil_chain(&mut self, record: &mut [u8]) {
        let (parent, height) = match wire::kind_of(record) {
            wire::kind::PROPOSAL => (48, 80),
            wire::kind::BLOCK => (40, 72),
            _ => return self.spoil_fields(record),
        };
        match self.random.below(5) {
            0 => put_name(record, parent, self.fresh_name()),
            1 => put_name(record, parent, self.held_block().name),
            2 => put_u64(record, height, self.random.pick(&[0, 1, 1 << 62, (1 << 62) + 1, u64::MAX])),
            3 => self.lose_safe_block(record, parent),
            _ => {
                let up = wire::u64_at(record, height).wrapping_add(1);
                put_u64(record, height, up);
            }
        }
    }

    /// A certificate for a block that nobody here holds.
    fn lose_safe_block(&mut self, record: &mut [u8], parent: usize) {
        let unknown = self.fresh_name();
        put_name(record, parent, unknown);
        if wire::kind_of(record) == wire::kind::PROPOSAL {
            match timeouts_at(record) {
                None => put_name(record, INNER + 16, unknown),
                Some((first, count)) => {
                    for one in 0..count {
                        let at = first + wire::TIMEOUT * one;
                        if wire::u64_at(record, at + 16) > 0 {
                            put_name(record, at + 24, unknown);
                        }
                        if wire::u64_at(record, at + 64) > 0 {
                            put_name(record, at + 72, unknown);
                        }
                    }
                }
            }
        }
    }

    /// Some bytes, anywhere.
    fn damage(&mut self, record: &mut [u8]) {
        for _ in 0..self.random.between(1, 4) {
            let at = self.random.index(record.len());
            record[at] ^= 1 << self.random.below(8);
        }
    }
}

/// The view of a timeout certificate's timeouts.
fn set_timeout_views(record: &mut [u8], view: u64) {
    if let Some((first, count)) = timeouts_at(record) {
        for one in 0..count {
            put_u64(record, first + wire::TIMEOUT * one + 8, view);
        }
    }
}
