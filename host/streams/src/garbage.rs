//! Replicas in states that no run leads to: anything in counters, kept records and store that refusal 2 lets by.

use oracle::{
    wire, Block, Certificate, CertificateKind, EntryCertificate, Height, Leaders, Memory, Name, RawTimeout, Replica,
    Store, Timeout, View, Vote,
};

use crate::leaders::next_led;
use crate::opening::Opening;
use crate::random::Random;

/// An opened replica with garbage in its state. Few names and near views make quorums and walks likely.
pub fn garbage(opening: Opening, random: &mut Random) -> Replica {
    let mut replica = opening.open();
    fill_leaders(&mut replica, random);
    let view = view(&replica, random);
    let spread = random.pick(&[Spread::Whole, Spread::At(0), Spread::At(17), Spread::At(31)]);
    let names = random.pick(&[6, 6, 6, 30, 120]);
    let mut garbage = Garbage { random, view, spread, names };
    garbage.fill_counters(&mut replica);
    garbage.fill_store(&mut replica);
    garbage.fill_ballots(&mut replica);
    garbage.fill_timeouts(&mut replica);
    garbage.fill_entry(&mut replica);
    replica
}

/// Mostly the opening's list; else one of any length, with entries from n on. Behind it stands anything.
fn fill_leaders(replica: &mut Replica, random: &mut Random) {
    let n = replica.settings().n() as u8;
    let bytes: [u8; Leaders::MOST] = std::array::from_fn(|_| random.number() as u8);
    let leaders = &mut replica.memory.leaders;
    *leaders = leaders.over(bytes);
    if random.chance(20) {
        let (nobody, share) = (random.pick(&[n, u8::MAX]), random.pick(&[10, 50]));
        let place = bytes.map(|byte| if random.chance(share) { nobody } else { byte % n });
        *leaders = Leaders::of(1 + random.index(Leaders::MOST), place).expect("1 to 64 entries");
    }
}

/// Among the first or the last views, or anywhere; at times one that the replica leads.
fn view(replica: &Replica, random: &mut Random) -> u64 {
    let view = match random.below(3) {
        0 => random.between(1, 6),
        1 => View::MAX.0 - random.below(8),
        _ => random.between(1, 1 << 61),
    };
    let led = next_led(replica, view).filter(|&led| led <= View::MAX.0);
    led.filter(|_| random.chance(40)).unwrap_or(view)
}

/// In which bytes names differ.
#[derive(Clone, Copy)]
enum Spread {
    Whole,
    At(usize),
}

/// What the timeouts of a row have in common.
#[derive(Clone, Copy)]
struct Leaning {
    high_vote: Vote,
    /// How many in a hundred give that high vote.
    share: u64,
    carried: Carrying,
}

/// What certificates the timeouts of a row carry.
#[derive(Clone, Copy)]
enum Carrying {
    Any,
    /// Of views below the high votes', so that built ones rank above.
    Lower,
    /// Weak ones of view 0, which are as good as none.
    Nothing,
}

struct Garbage<'a> {
    random: &'a mut Random,
    view: u64,
    spread: Spread,
    /// How many names there are.
    names: u8,
}

/// With so few names stores are all branches and doubles; with more they hold a long chain, somewhat broken.
const FEW: u8 = 6;

impl Garbage<'_> {
    fn number(&mut self) -> u8 {
        self.random.below(self.names.into()) as u8
    }

    /// One of the names, the zero name among them.
    fn name(&mut self) -> Name {
        let number = self.number();
        self.name_of(number)
    }

    fn name_of(&self, number: u8) -> Name {
        match self.spread {
            Spread::Whole => [number; 32],
            Spread::At(place) => {
                let mut name = [0; 32];
                name[place] = number;
                name
            }
        }
    }

    /// Near the current view, at times anywhere.
    fn near_view(&mut self, span: u64) -> View {
        match self.random.below(50) {
            0 => View(self.random.number()),
            _ => View((self.view + self.random.below(2 * span + 1)).saturating_sub(span)),
        }
    }

    /// Sparse, even, dense or full; bits from n on too.
    fn set(&mut self) -> u64 {
        let (a, b, c) = (self.random.number(), self.random.number(), self.random.number());
        self.random.pick(&[a & b, a, a | b | c, u64::MAX])
    }

    fn certificate(&mut self) -> Certificate {
        let kind = self.random.pick(&[CertificateKind::Block, CertificateKind::Weak]);
        Certificate { kind, view: self.near_view(5), name: self.name(), signers: self.random.number() }
    }

    /// Heights mostly go by the name, so that many walks come to the tip.
    fn block(&mut self, number: u8) -> Block {
        let chained = self.names > FEW && !self.random.chance(3);
        let height = match self.random.below(20) {
            _ if chained => number.into(),
            0 => self.random.pick(&[u64::MAX, 1 << 62, (1 << 62) - 1]),
            1..4 => self.number().into(),
            _ => number.into(),
        };
        let lower = if chained { 1 } else { self.random.between(1, FEW.into()) as u8 };
        let descends = chained || self.random.chance(60);
        let parent = if descends { self.name_of(number.saturating_sub(lower)) } else { self.name() };
        Block { name: self.name_of(number), parent, height: Height(height) }
    }

    /// The last views and numbers, or no view.
    fn odd_view(&mut self) -> View {
        View(self.random.pick(&[0, 1, View::MAX.0 - 1, View::MAX.0, View::MAX.0 + 1, u64::MAX]))
    }

    fn fill_counters(&mut self, replica: &mut Replica) {
        let counters = &mut replica.counters;
        counters.view = View(self.view);
        counters.timed = self.near_view(3);
        counters.high_vote = Vote { view: self.near_view(3), name: self.name() };
        counters.lock = Certificate { kind: CertificateKind::Block, ..self.certificate() };
        counters.best_weak = Certificate { kind: CertificateKind::Weak, ..self.certificate() };
        if self.random.chance(40) {
            counters.best_weak.view = View(0);
        }
        let number = self.random.below(3) as u8;
        counters.tip = self.block(number);
        if self.random.chance(60) {
            counters.tip.height = Height(0);
        }
        for view in [&mut counters.timed, &mut counters.high_vote.view, &mut counters.lock.view] {
            if self.random.chance(5) {
                *view = self.odd_view();
            }
        }
    }

    /// Most ballots of a row are for one name, mostly of a held block.
    fn fill_ballots(&mut self, replica: &mut Replica) {
        let Memory { votes, commits, store, .. } = &mut *replica.memory;
        for row in votes.rows.iter_mut().chain(&mut commits.rows) {
            row.given = self.set();
            let held = !store.is_empty() && self.random.chance(80);
            let common = if held { self.random.pick(store.blocks()).name } else { self.name() };
            let share = self.random.pick(&[50, 80, 95, 100]);
            for name in &mut row.names {
                *name = if self.random.chance(share) { common } else { self.name() };
            }
        }
    }

    fn fill_timeouts(&mut self, replica: &mut Replica) {
        let few = self.random.chance(60); // otherwise most replicas leave the views of their votes
        for row in &mut replica.memory.timeouts.rows {
            row.given =
                if few { self.random.number() & self.random.number() & self.random.number() } else { self.set() };
            let leaning = self.leaning();
            for (i, raw) in row.raw.iter_mut().enumerate() {
                *raw = self.raw_timeout(i as u16, leaning);
            }
        }
    }

    fn leaning(&mut self) -> Leaning {
        Leaning {
            high_vote: Vote { view: self.near_view(1), name: self.name() },
            share: self.random.pick(&[0, 50, 90]),
            carried: self.random.weighted(&[(5, Carrying::Any), (4, Carrying::Lower), (1, Carrying::Nothing)]),
        }
    }

    fn raw_timeout(&mut self, replica: u16, leaning: Leaning) -> RawTimeout {
        let sender = match self.random.below(40) {
            0 => self.random.number() as u16,
            1 => self.random.below(64) as u16,
            _ => replica,
        };
        let other = Vote { view: self.near_view(1), name: self.name() };
        let high_vote = if self.random.chance(leaning.share) { leaning.high_vote } else { other };
        let mut timeout = Timeout { sender, view: self.near_view(2), high_vote, certificate: self.certificate() };
        match leaning.carried {
            Carrying::Any => {}
            Carrying::Lower => timeout.certificate.view = View(self.view.saturating_sub(2 + self.random.below(4))),
            Carrying::Nothing => timeout.certificate = Certificate::weak(View(0), self.name(), self.random.number()),
        }
        let mut raw = wire::raw_timeout(&timeout);
        if self.random.chance(5) {
            raw[self.random.index(wire::TIMEOUT)] = self.random.number() as u8;
        }
        raw
    }

    /// Behind the held entries stand others like them.
    fn fill_store(&mut self, replica: &mut Replica) {
        let count = match self.random.below(20) {
            0 => Store::ROOM,
            1 => Store::ROOM - 1,
            _ if self.names > FEW => self.random.index(self.names.into()),
            _ => self.random.index(24),
        };
        let mut entries = std::array::from_fn(|i| {
            let in_order = self.names > FEW && self.random.chance(95);
            let number = if in_order { (i + 1) as u8 } else { self.number() };
            self.block(number)
        });
        let swaps = self.random.pick(&[0, 4, Store::ROOM]);
        for _ in 0..swaps {
            entries.swap(self.random.index(count.max(1)), self.random.index(count.max(1)));
        }
        replica.memory.store = Store::of(count, entries).expect("at most as many as there is room for");
    }

    /// Kind 3, or kind 6 with up to n timeouts; all but kind, count and length is free.
    fn fill_entry(&mut self, replica: &mut Replica) {
        let mut record = Vec::new();
        if self.random.chance(50) {
            wire::write_block_certificate(&mut record, replica.own(), &self.certificate());
        } else {
            let count = self.random.between(0, replica.settings().n().into()) as u16;
            wire::write_timeout_certificate_head(&mut record, replica.own(), self.near_view(1), count.into());
            let leaning = self.leaning();
            for i in 0..count {
                record.extend_from_slice(&self.raw_timeout(i, leaning));
            }
        }
        let left_over = std::array::from_fn(|_| self.random.number() as u8);
        replica.memory.entry = EntryCertificate::of(0, left_over);
        replica.memory.entry.set(&record);
    }
}
