//! Inputs of the call that names the decisive timeout: settings and a record, good ones and such as are refused.

use std::collections::BTreeSet;
use std::fmt;
use std::sync::OnceLock;

use oracle::{
    members, wire, Certificate, CertificateKind, Faults, Name, Protocol, Refusal, Replica, Settings, Timeout, View,
    Vote, GENESIS,
};

use crate::good::{of_any_count, record, Maker};
use crate::opening::Opening;
use crate::random::Random;

/// Settings and a record.
#[derive(Clone, Debug, PartialEq, Eq)]
pub struct DecisiveCall {
    /// f, c, k and n.
    pub settings: [u64; 4],
    pub record: Vec<u8>,
}

/// What the call answers: nobody or a sender, or a refusal.
pub type DecisiveAnswer = Result<Option<u16>, Refusal>;

impl DecisiveCall {
    /// Makes the call.
    pub fn make(&self) -> DecisiveAnswer {
        let [f, c, k, n] = self.settings;
        oracle::decisive(f, c, k, n, &self.record)
    }
}

/// A seeded generator of such calls in one cluster. With even seeds one after another each of the settings comes up.
pub struct DecisiveStream {
    random: Random,
    opening: Opening,
    /// For records that a replica might be handed.
    replica: Replica,
}

impl DecisiveStream {
    pub fn new(seed: u64) -> DecisiveStream {
        let mut random = Random::new(seed ^ 0x6465_6369);
        let opening = if seed.is_multiple_of(2) { in_turn(seed / 2) } else { Opening::any(&mut random) };
        DecisiveStream { random, opening, replica: opening.open() }
    }

    /// Mostly a certificate, good or spoiled.
    fn record(&mut self) -> Vec<u8> {
        match self.random.below(100) {
            0..60 => self.certificate(),
            60..88 => self.spoiled(),
            88..96 => self.other_kind(),
            96 => of_any_count(self.opening.n, &mut self.random).2,
            _ => self.noise(),
        }
    }

    /// Mostly those of the cluster; else an n that isn't 3f+2c+k+1, or that sum over 32.
    fn settings(&mut self) -> [u64; 4] {
        let [f, c, k, n, _] = self.opening.numbers();
        match self.random.below(50) {
            0 => [f, c, k, self.random.pick(&[0, n - 1, n + 1, n + (1 << 32), u64::MAX])],
            1 => {
                let [f, c, k, n, _] = self.opening.spoilt_sum(64, &mut self.random);
                [f, c, k, n]
            }
            _ => [f, c, k, n],
        }
    }

    fn maker(&mut self) -> Maker<'_> {
        Maker { random: &mut self.random, replica: &self.replica, jumps: true }
    }

    /// A certificate that one rule, or two, refuse.
    fn spoiled(&mut self) -> Vec<u8> {
        let mut record = self.certificate();
        self.maker().spoil(&mut record);
        record
    }

    /// A record of another kind, at times with another length than its kind has, or a header alone.
    fn other_kind(&mut self) -> Vec<u8> {
        let kind = self.random.below(7);
        let mut maker = self.maker();
        let mut record = match kind {
            0 => maker.vote(),
            1 => maker.commit(),
            2 => maker.block_certificate(),
            3 => maker.timeout(),
            4 => maker.proposal(),
            5 => maker.block(),
            _ => maker.timeout_certificate(),
        };
        if kind == 6 {
            let other = self.random.pick(&[0, 4, 5, 7, 9, 12, 6 << 8, u16::MAX]);
            record[4..6].copy_from_slice(&other.to_le_bytes());
        }
        if self.random.chance(50) {
            let length = self.random.index(2 * record.len()).max(wire::HEADER);
            record.resize(length, 0);
            let field = length as u32 + self.random.pick(&[0, 0, 1]);
            record[..4].copy_from_slice(&field.to_le_bytes());
        }
        record
    }

    /// Any bytes, at times none.
    fn noise(&mut self) -> Vec<u8> {
        if self.random.chance(20) {
            return Vec::new();
        }
        self.maker().noise()
    }

    /// A good timeout certificate of any count.
    fn certificate(&mut self) -> Vec<u8> {
        let settings = self.replica.settings();
        let quorum = settings.timeout_quorum();
        let count = self.random.between(quorum.into(), settings.n().into()) as u32;
        let senders = self.random.subset(settings.everyone(), count);
        let last = View::MAX.0 - 1;
        let any = self.random.between(1, last);
        let view = self.random.pick(&[1, 2, 3, 9, last, any]);
        let place = self.random.pick(&[None, Some(0), Some(17), Some(31)]);
        let mut maker = TimeoutMaker { random: &mut self.random, settings, view, place };
        let timeouts = maker.timeouts(senders);
        let sender = self.random.below(settings.n().into()) as u16;
        record(|out| wire::write_timeout_certificate(out, sender, View(view), &timeouts))
    }
}

/// It never ends.
impl Iterator for DecisiveStream {
    type Item = DecisiveCall;

    fn next(&mut self) -> Option<DecisiveCall> {
        Some(DecisiveCall { settings: self.settings(), record: self.record() })
    }
}

/// The settings of this number, beginning again after the last.
fn in_turn(number: u64) -> Opening {
    static ALL: OnceLock<Vec<Settings>> = OnceLock::new();
    let all = ALL.get_or_init(Settings::all);
    let settings = all[number as usize % all.len()];
    let [f, c, k] = [settings.f(), settings.c(), settings.k()].map(u64::from);
    Opening::new(f, c, k, 0).expect("good settings")
}

/// Makes timeouts between which the choice nearly hangs: few names, near views, and as many high votes for a name as build
/// a weak certificate, or one more or fewer.
struct TimeoutMaker<'a> {
    random: &'a mut Random,
    settings: Settings,
    view: u64,
    /// The byte in which names differ; none if it is each.
    place: Option<usize>,
}

impl TimeoutMaker<'_> {
    fn timeouts(&mut self, senders: u64) -> Vec<Timeout> {
        let plain = |sender: usize| Timeout {
            sender: sender as u16,
            view: View(self.view),
            high_vote: Vote::NONE,
            certificate: Certificate::GENESIS,
        };
        let mut timeouts: Vec<Timeout> = members(senders).map(plain).collect();
        if self.random.chance(10) {
            self.any(&mut timeouts);
            return timeouts;
        }
        for share in [80, 50] {
            if self.random.chance(share) {
                self.back(&mut timeouts);
            }
        }
        for share in [40, 30] {
            if self.random.chance(share) {
                self.carry(&mut timeouts);
            }
        }
        timeouts
    }

    /// Every high vote and certificate for itself.
    fn any(&mut self, timeouts: &mut [Timeout]) {
        for timeout in timeouts {
            timeout.high_vote = self.vote();
            timeout.certificate = self.certificate();
        }
    }

    /// About as many high votes for one name as build a certificate.
    fn back(&mut self, timeouts: &mut [Timeout]) {
        let vote = self.vote();
        let weak = self.settings.weak_quorum();
        let backers = self.random.pick(&[weak, weak, weak - 1, weak + 1]);
        for place in self.places(timeouts.len(), backers) {
            timeouts[place].high_vote = vote;
        }
    }

    /// One certificate, carried by one timeout or two.
    fn carry(&mut self, timeouts: &mut [Timeout]) {
        let certificate = self.certificate();
        let carriers = self.random.pick(&[1, 1, 2]);
        for place in self.places(timeouts.len(), carriers) {
            timeouts[place].certificate = certificate;
        }
    }

    /// So many of these places, or all.
    fn places(&mut self, len: usize, count: u32) -> impl Iterator<Item = usize> {
        members(self.random.subset((1 << len) - 1, count))
    }

    fn near_view(&mut self) -> View {
        let below = self.random.pick(&[0, 0, 0, 1, 2]);
        View(self.view.saturating_sub(below).max(1))
    }

    /// One of three.
    fn name(&mut self) -> Name {
        let number = 1 + self.random.below(3) as u8;
        let mut name = [number; 32];
        if let Some(place) = self.place {
            name = [0x55; 32];
            name[place] = number;
        }
        name
    }

    fn vote(&mut self) -> Vote {
        Vote { view: self.near_view(), name: self.name() }
    }

    /// A good one; at times it is for genesis and yet of a later view.
    fn certificate(&mut self) -> Certificate {
        let (view, name) = (self.near_view(), self.name());
        let name = if self.random.chance(8) { GENESIS } else { name };
        let kind = self.random.pick(&[CertificateKind::Block, CertificateKind::Weak]);
        let quorum = match kind {
            CertificateKind::Block => self.settings.block_quorum(),
            CertificateKind::Weak => self.settings.weak_quorum(),
        };
        let count = self.random.between(quorum.into(), self.settings.n().into()) as u32;
        Certificate { kind, view, name, signers: self.random.subset(self.settings.everyone(), count) }
    }
}

/// What a good certificate came to.
#[derive(Clone, Copy, Debug, PartialEq, Eq)]
pub enum Outcome {
    /// Nobody: no timeout can be spared.
    Exact,
    /// Nobody: without any one timeout the same block is safe.
    Settled,
    /// The first sender.
    First,
    /// A later one.
    Later,
}

/// What made the block safe of a certificate in which a timeout was decisive.
#[derive(Clone, Copy, Debug, PartialEq, Eq)]
pub enum Decided {
    CarriedBlock,
    CarriedWeak,
    Built,
}

/// What such calls came upon.
#[derive(Clone, Debug, Default)]
pub struct DecisiveCoverage {
    answers: [u64; 16],
    outcomes: [u64; 4],
    decided: [u64; 3],
    /// Settings with a good certificate.
    settings: BTreeSet<[u64; 4]>,
}

impl DecisiveCoverage {
    pub fn count(&mut self, call: &DecisiveCall, answer: DecisiveAnswer) {
        self.answers[usize::from(answer.err().map_or(0, Refusal::number))] += 1;
        let Ok(named) = answer else { return };
        let [f, c, k, _] = call.settings;
        let settings = Settings::new(f, c, k).expect("settings that are taken");
        self.settings.insert(call.settings);
        let timeouts = wire::Timeouts::of(&call.record);
        let outcome = match named {
            None if timeouts.count() == settings.timeout_quorum() as usize => Outcome::Exact,
            None => Outcome::Settled,
            Some(_) if timeouts.senders().next() == named => Outcome::First,
            Some(_) => Outcome::Later,
        };
        self.outcomes[outcome as usize] += 1;
        if named.is_some() {
            self.decided[decided(settings, timeouts) as usize] += 1;
        }
    }

    pub fn calls(&self) -> u64 {
        self.answers.iter().sum()
    }

    /// How often this answer was given.
    pub fn of(&self, answer: u16) -> u64 {
        self.answers[usize::from(answer)]
    }

    /// The answers that were given.
    pub fn answers(&self) -> Vec<u16> {
        (0..16).filter(|&answer| self.of(answer) > 0).collect()
    }

    pub fn of_outcome(&self, outcome: Outcome) -> u64 {
        self.outcomes[outcome as usize]
    }

    pub fn of_decided(&self, decided: Decided) -> u64 {
        self.decided[decided as usize]
    }

    /// How many settings had a good certificate.
    pub fn settings(&self) -> usize {
        self.settings.len()
    }
}

/// A safe certificate that no timeout carries is a built one.
fn decided(settings: Settings, timeouts: wire::Timeouts<'_>) -> Decided {
    let safe = Protocol::new(settings, Faults::NONE).safe_certificate(timeouts);
    match safe.kind {
        CertificateKind::Block => Decided::CarriedBlock,
        _ if timeouts.iter().any(|timeout| timeout.certificate == safe) => Decided::CarriedWeak,
        _ => Decided::Built,
    }
}

impl fmt::Display for DecisiveCoverage {
    fn fmt(&self, f: &mut fmt::Formatter<'_>) -> fmt::Result {
        let [exact, settled, first, later] = self.outcomes;
        let [block, weak, built] = self.decided;
        write!(f, "answers:")?;
        self.answers().into_iter().try_for_each(|answer| write!(f, " {answer}: {}", self.of(answer)))?;
        writeln!(f)?;
        writeln!(
            f,
            "nobody: {exact} with just enough timeouts, {settled} with more; {first} the first sender, {later} a later one"
        )?;
        writeln!(
            f,
            "decided by a carried block certificate {block}, by a carried weak one {weak}, by a built one {built}"
        )?;
        write!(f, "{} calls, good certificates in {} settings", self.calls(), self.settings())
    }
}
