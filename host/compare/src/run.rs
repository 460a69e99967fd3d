//! Seeded runs: a start, and calls that fit the state as it stands.

use std::fmt;
use std::str::FromStr;

use oracle::lent::{Rooms, MEMORY_ROOM, OUTPUT_ROOM, STORE_ROOM};
use oracle::{regions, wire, Block, Faults, Height, Replica, Store, View, GENESIS};
use streams::{garbage, garbage_rooms, of_any_count, scatter, Call, Opening, Random, Stream};

use crate::difference::Difference;
use crate::expected::Expected;
use crate::pair::Pair;
use crate::shrink::shortest;
use crate::step::{AnyCall, Step};
use crate::tally::Tally;

#[derive(Clone, Copy, Debug, PartialEq, Eq)]
pub enum Kind {
    /// Random bytes, then an opening, then a long stream.
    Opened,
    /// A garbage state, mostly one that refusal 2 lets by.
    Garbage,
}

impl Kind {
    /// How many calls a run of this kind has.
    pub fn calls(self) -> u64 {
        match self {
            Kind::Opened => 1_500,
            Kind::Garbage => 50,
        }
    }
}

/// Where a run starts; the seed says the calls too.
#[derive(Clone, Copy, Debug, PartialEq, Eq)]
pub struct Run {
    pub kind: Kind,
    pub seed: u64,
}

impl fmt::Display for Run {
    fn fmt(&self, f: &mut fmt::Formatter<'_>) -> fmt::Result {
        write!(f, "{} {}", if self.kind == Kind::Opened { "opened" } else { "garbage" }, self.seed)
    }
}

/// A difference, and the fewest calls from the run's start that show one.
#[derive(Clone, Debug)]
pub struct Mismatch {
    pub run: Run,
    pub steps: Vec<Step>,
    pub difference: Difference,
}

/// Lines that `compare replay` takes, after one that says what differs.
impl fmt::Display for Mismatch {
    fn fmt(&self, f: &mut fmt::Formatter<'_>) -> fmt::Result {
        writeln!(f, "# {}", self.difference)?;
        writeln!(f, "{}", self.run)?;
        self.steps.iter().try_for_each(|step| writeln!(f, "{step}"))
    }
}

/// Compares at least so many calls in runs of one kind, seeds from `first` on.
pub fn compare_part(kind: Kind, first: u64, calls: u64, faults: Faults) -> Result<Tally, Box<Mismatch>> {
    let mut tally = Tally::default();
    for seed in first..first + calls.div_ceil(kind.calls()) {
        compare_run(Run { kind, seed }, kind.calls() as usize, faults, &mut tally)?;
    }
    Ok(tally)
}

/// Compares so many calls of a run, with an oracle that makes these errors, and counts them.
pub fn compare_run(run: Run, calls: usize, faults: Faults, tally: &mut Tally) -> Result<(), Box<Mismatch>> {
    let mut script = Script::new(run);
    let mut pair = Pair::new(script.start.clone(), faults);
    let mut steps = Vec::with_capacity(calls);
    for _ in 0..calls {
        steps.push(script.next(pair.expected.replica.as_ref()));
        let step = &steps[steps.len() - 1];
        let before = pair.expected.replica.as_ref().map(|replica| replica.counters);
        let case = pair.expected.replica.as_ref().and_then(|replica| step.contents_case(replica));
        match pair.step(step) {
            Ok(reply) => tally.count(step, reply, before, case, &pair.expected),
            Err(_) => return Err(shortest(run, steps, faults)),
        }
    }
    Ok(())
}

impl Run {
    /// The bytes that it starts from.
    pub fn start(self) -> Rooms {
        Script::new(self).start
    }

    /// Its first calls, made on the oracle alone.
    pub fn steps(self, calls: usize) -> Vec<Step> {
        let mut script = Script::new(self);
        let mut oracle = Expected::new(script.start.clone(), Faults::NONE);
        let mut step = || {
            let step = script.next(oracle.replica.as_ref());
            let _ = oracle.step(&step);
            step
        };
        (0..calls).map(|_| step()).collect()
    }
}

impl FromStr for Run {
    type Err = String;

    fn from_str(line: &str) -> Result<Run, String> {
        let run = |kind, seed: &str| Some(Run { kind, seed: seed.parse().ok()? });
        let known = match line.split_once(' ') {
            Some(("opened", seed)) => run(Kind::Opened, seed),
            Some(("garbage", seed)) => run(Kind::Garbage, seed),
            _ => None,
        };
        known.ok_or_else(|| format!("neither `opened SEED` nor `garbage SEED`: {line}"))
    }
}

/// Makes the calls of a run.
struct Script {
    start: Rooms,
    opening: Opening,
    random: Random,
    stream: Stream,
    /// For calls on a state that is turned away.
    sound: Replica,
    begun: bool,
}

impl Script {
    fn new(run: Run) -> Script {
        let mut random = Random::new(run.seed ^ 0x636F_6D70);
        let opening = if random.chance(60) { Opening::seeded(run.seed) } else { Opening::any(&mut random) };
        let opening = opening.led(&mut random);
        let sound = garbage(opening, &mut random);
        let (start, stream) = match run.kind {
            Kind::Opened => (random_rooms(&mut random), Stream::new(run.seed)),
            Kind::Garbage => (garbage_rooms(opening, &mut random), Stream::restless(run.seed)),
        };
        let stream = stream.with_contents();
        Script { start, opening, random, stream, sound, begun: run.kind == Kind::Garbage }
    }

    fn next(&mut self, replica: Option<&Replica>) -> Step {
        if !self.begun {
            self.begun = true;
            let leaders = self.opening.leaders.list().to_vec();
            return Step { lent: EXACT, call: AnyCall::Open(self.opening.numbers(), leaders) };
        }
        let lent = self.lengths();
        let openings = if replica.is_some() { 2 } else { 300 };
        if self.random.below(1000) < openings {
            return Step { lent, call: self.any_opening() };
        }
        let odd = match self.random.below(1000) {
            0..3 => Some(self.noise()),
            3..6 => Some(self.overlong()),
            _ => None,
        };
        let replica = replica.unwrap_or(&self.sound);
        let call = match odd {
            Some(record) => self.stream.join_contents(Call::Record(record), replica),
            None => self.stream.next(replica),
        };
        Step { lent, call: AnyCall::Call(call) }
    }

    /// Mostly those of the start; at times longer, of odd length, or one of them too short.
    fn lengths(&mut self) -> [usize; 3] {
        let mut lent = self.start.lent;
        match self.random.below(100) {
            0..4 => lent = ROOM,
            4..8 => lent = [0, 1, 2].map(|i| EXACT[i] + self.random.index(ROOM[i] - EXACT[i] + 1)),
            8 => {
                let i = self.random.index(3);
                let any = self.random.index(EXACT[i]);
                lent[i] = self.random.pick(&[0, 1, 7, EXACT[i] - 1, any]);
            }
            9 => lent = EXACT.map(|most| self.random.index(most)),
            _ => {}
        }
        lent
    }

    /// Settings and a list that are taken or nearly taken, or any numbers.
    fn any_opening(&mut self) -> AnyCall {
        let other = Opening::any(&mut self.random).led(&mut self.random);
        let opening = self.random.pick(&[self.opening, other]);
        AnyCall::Open(self.any_numbers(opening), self.any_list(opening))
    }

    fn any_numbers(&mut self, opening: Opening) -> [u64; 5] {
        let mut five = opening.numbers();
        match self.random.below(10) {
            0..2 => {
                let bits = self.random.pick(&[16, 32, 64]);
                return opening.spoilt_numbers(bits, &mut self.random);
            }
            2..5 => {
                let i = self.random.index(5);
                let any = self.random.number();
                let near = five[i].wrapping_add(self.random.pick(&[1, u64::MAX]));
                let wrapped = five[i] | 1 << self.random.between(16, 63); // the same in its low bits
                five[i] = self.random.pick(&[near, near, wrapped, five[3], 1 << 62, u64::MAX, any]);
            }
            _ => {}
        }
        five
    }

    fn any_list(&mut self, opening: Opening) -> Vec<u8> {
        match self.random.below(10) {
            0..3 => opening.spoilt_list(&mut self.random),
            3 => {
                let mut bytes = vec![0; self.random.index(80)];
                scatter(&mut bytes, &mut self.random);
                bytes
            }
            _ => opening.leaders.list().to_vec(),
        }
    }

    /// A timeout certificate of any count, at times inside a proposal.
    fn overlong(&mut self) -> Vec<u8> {
        let (leader, view, inner) = of_any_count(self.opening.n, &mut self.random);
        if self.random.chance(50) {
            return inner;
        }
        let mut record = Vec::new();
        let block = Block { name: [7; 32], parent: GENESIS, height: Height(1) };
        wire::write_proposal(&mut record, leader, View(view.0 + 1), &block, &inner);
        record
    }

    /// A slice of any length with a header that is right or nearly so.
    fn noise(&mut self) -> Vec<u8> {
        let length = self.random.pick(&[16, 200, 4_000, 70_000]);
        let mut bytes = vec![0; self.random.index(length)];
        if self.random.chance(50) {
            scatter(&mut bytes, &mut self.random);
        }
        if bytes.len() >= 8 {
            let length = (bytes.len() as u32).wrapping_add(self.random.pick(&[0, 0, 0, 0, 1, u32::MAX]));
            bytes[..4].copy_from_slice(&length.to_le_bytes());
            bytes[4..6].copy_from_slice(&(self.random.below(10) as u16).to_le_bytes());
        }
        bytes
    }
}

/// What is lent at least, and at most.
const EXACT: [usize; 3] = [regions::MEMORY, Store::ROOM, regions::OUTPUT];
const ROOM: [usize; 3] = [MEMORY_ROOM, STORE_ROOM, OUTPUT_ROOM];

fn random_rooms(random: &mut Random) -> Rooms {
    let mut rooms = Rooms::empty();
    scatter(&mut rooms.counters, random);
    scatter(&mut rooms.memory, random);
    scatter(&mut rooms.store, random);
    rooms
}
