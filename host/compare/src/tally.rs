//! What compared calls came upon.

use std::fmt;

use oracle::{answer, Counters, Leaders, Refusal, Reply, Settings, CONTENTS};
use streams::{reachable, ContentsCase, Coverage, Kind, Path, Row};

use crate::expected::Expected;
use crate::step::{AnyCall, Step};

/// Calls by kind and answer, paths, and openings by answer.
#[derive(Clone, Debug, Default)]
pub struct Tally {
    pub calls: Coverage,
    /// Calls refused by 2 although their contents were too long as well.
    pub regions_before_length: u64,
    pub openings: [u64; 3],
    /// Openings refused for their numbers: n over 32, own number from n on, n that is 3f+2c+k+1 only in 64 bits, another n.
    pub numbers: [u64; 4],
    /// Openings refused for their leader list alone: empty, longer than 64, with an entry from n on.
    pub lists: [u64; 3],
}

impl Tally {
    /// Counts a call that both sides made alike, and the contents that it came with.
    pub fn count(
        &mut self,
        step: &Step,
        reply: Reply,
        before: Option<Counters>,
        case: Option<ContentsCase>,
        after: &Expected,
    ) {
        let call = match &step.call {
            AnyCall::Open(numbers, leaders) => {
                self.count_opening(reply, *numbers, leaders);
                return;
            }
            AnyCall::Call(call) => call,
        };
        match (&after.replica, before) {
            (Some(replica), Some(before)) if reply != Err(Refusal::Regions) => {
                let output = &after.rooms.output[..reply.unwrap_or(0)];
                self.calls.count(call, reply, &before, replica, output);
                self.calls.count_contents(case);
            }
            _ => {
                self.calls.count_refused(call, Refusal::Regions);
                let too_long = call.contents().is_some_and(|contents| contents.len() > CONTENTS);
                self.regions_before_length += u64::from(too_long);
            }
        }
    }

    fn count_opening(&mut self, reply: Reply, numbers: [u64; 5], leaders: &[u8]) {
        self.openings[usize::from(answer(reply))] += 1;
        if reply == Err(Refusal::Settings) {
            match broken_number(numbers) {
                Some(rule) => self.numbers[rule] += 1,
                None => self.lists[broken_rule(leaders)] += 1,
            }
        }
    }

    pub fn compared(&self) -> u64 {
        self.calls.calls() + self.openings.iter().sum::<u64>()
    }

    pub fn accepted_percent(&self) -> u64 {
        100 * (self.calls.accepted() + self.openings[0]) / self.compared().max(1)
    }

    /// Pairs of the papers that didn't come up.
    pub fn missing(&self) -> Vec<(Row, u16)> {
        self.calls.missing(&pairs())
    }

    /// Pairs that came up and that the papers don't have.
    pub fn unlisted(&self) -> Vec<(Row, u16)> {
        self.calls.unlisted(&pairs())
    }

    /// Cases of contents that didn't come up; lent states add one to those of streams.
    pub fn missing_cases(&self) -> Vec<ContentsCase> {
        let lent = ContentsCase { kind: Kind::Propose, right: false, plain: 13 };
        let mut missing = self.calls.missing_cases();
        missing.extend(Some(lent).filter(|lent| self.calls.of_case(*lent) == 0));
        missing
    }

    pub fn missing_paths(&self) -> Vec<Path> {
        self.calls.missing_paths()
    }

    /// Pairs that came up, openings among them.
    pub fn pairs_hit(&self) -> usize {
        pairs().len() - self.missing().len() + self.openings.iter().filter(|&&times| times > 0).count()
    }
}

/// Which rule five numbers break; none if they are taken.
fn broken_number([f, c, k, n, own]: [u64; 5]) -> Option<usize> {
    let sum = 3 * u128::from(f) + 2 * u128::from(c) + u128::from(k) + 1;
    if sum == n.into() {
        return if n > Settings::MAX_N as u64 { Some(0) } else { (own >= n).then_some(1) };
    }
    Some(if sum as u64 == n { 2 } else { 3 })
}

/// Which rule a list breaks that is refused.
fn broken_rule(leaders: &[u8]) -> usize {
    match leaders.len() {
        0 => 0,
        length if length > Leaders::MOST => 1,
        _ => 2,
    }
}

/// What streams can reach, and what lent states add: 2 for every row, and 13 for propose.
fn pairs() -> Vec<(Row, u16)> {
    let mut pairs = reachable();
    pairs.extend(Row::all().into_iter().map(|row| (row, 2)));
    pairs.extend([Row::Plain(Kind::Propose), Row::With(Kind::Propose)].map(|row| (row, 13)));
    pairs
}

impl fmt::Display for Tally {
    fn fmt(&self, f: &mut fmt::Formatter<'_>) -> fmt::Result {
        let [accepted, settings, regions] = self.openings;
        let [too_many, own, wrapped, other] = self.numbers;
        let [empty, longer, outside] = self.lists;
        writeln!(f, "{}", self.calls)?;
        writeln!(f, "contents too long where 2 comes first: {}", self.regions_before_length)?;
        writeln!(f, "openings: {accepted} accepted, {settings} refused by 1, {regions} by 2")?;
        writeln!(
            f,
            "for the numbers: {too_many} n over 32, {own} own number, {wrapped} wrapped sum, {other} another n"
        )?;
        writeln!(f, "for the list alone: {empty} empty, {longer} too long, {outside} with an entry from n on")?;
        write!(f, "{} calls compared, {} % accepted, ", self.compared(), self.accepted_percent())?;
        write!(f, "{} pairs (kind of call, answer), missing {:?}", self.pairs_hit(), self.missing())
    }
}
