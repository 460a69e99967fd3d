//! Whose timeout decided: the call on a timeout certificate, which touches no replica.

use std::hint::black_box;

use oracle::{wire, Certificate, Name, Settings, Timeout, View, Vote};
use replica::raw;
use streams::DecisiveCall;

use crate::measure::measure_calls;
use crate::size::SETTINGS;
use crate::table::{Row, Table};

/// Records of each cluster and case, with other names.
const SEEDS: u64 = 10;

/// The certificates' view.
const VIEW: View = View(40);

/// What is asked about.
#[derive(Clone, Copy, Debug, PartialEq, Eq)]
pub enum Case {
    /// Exactly n−f−c timeouts, all with the same vote and its block certificate: none can be left out, which ends it.
    Enough,
    /// The same by all n, so that each is left out in turn; nobody decides.
    Alike,
    /// All n, and the last sender decides, so that each is left out in turn. High votes and carried weak certificates are
    /// all of one view and of different names, so that rank is a matter of names everywhere. Each carried one outranks the
    /// one before; each high vote would outrank them all, so it is counted, in vain.
    Different,
    /// The same with as many equal high votes as can be without a weak certificate, by turns for two names: most of all
    /// with the weak quorum of f = 0 and c = 1. The library's slowest.
    ByTurns,
}

impl Case {
    pub const ALL: [Case; 4] = [Case::Enough, Case::Alike, Case::Different, Case::ByTurns];

    fn words(self) -> &'static str {
        match self {
            Case::Enough => "exactly n − f − c timeouts",
            Case::Alike => "n timeouts, all alike",
            Case::Different => "n timeouts, all different",
            Case::ByTurns => "n timeouts, votes by turns",
        }
    }

    /// A cluster of this size; none where it isn't one of those that are measured.
    pub fn cluster(self, n: u64) -> Option<Settings> {
        let (f, c, k) = SETTINGS.into_iter().find(|(f, c, k)| 3 * f + 2 * c + k + 1 == n)?;
        match self {
            Case::ByTurns => Settings::new(0, 1, n - 3),
            _ => Settings::new(f, c, k),
        }
    }

    /// The sender that the call names.
    fn decisive(self, settings: Settings) -> Option<u16> {
        matches!(self, Case::Different | Case::ByTurns).then(|| settings.n() as u16 - 1)
    }

    fn count(self, settings: Settings) -> u32 {
        match self {
            Case::Enough => settings.timeout_quorum(),
            _ => settings.n(),
        }
    }

    fn timeout(self, settings: Settings, sender: u16, seed: u64) -> Timeout {
        let signers = |quorum: u32| (1 << quorum) - 1;
        let carried = || Certificate::weak(VIEW, name(seed, u16::MAX - sender), signers(settings.weak_quorum()));
        let (voted, certificate) = match self {
            Case::Enough | Case::Alike => {
                (0, Certificate::block(VIEW, name(seed, 0), signers(settings.block_quorum())))
            }
            Case::Different => (sender, carried()),
            Case::ByTurns => (turn(sender, settings.weak_quorum() as u16 - 1), carried()),
        };
        Timeout { sender, view: VIEW, high_vote: Vote { view: VIEW, name: name(seed, voted) }, certificate }
    }

    pub fn question(self, settings: Settings, seed: u64) -> Question {
        let senders = 0..self.count(settings) as u16;
        let timeouts: Vec<Timeout> = senders.map(|sender| self.timeout(settings, sender, seed)).collect();
        let mut record = Vec::new();
        wire::write_timeout_certificate(&mut record, 0, VIEW, &timeouts);
        let numbers = [settings.f(), settings.c(), settings.k(), settings.n()].map(u64::from);
        Question { call: DecisiveCall { settings: numbers, record }, decisive: self.decisive(settings) }
    }
}

/// Two names by turns until each has been given so often, then the next two.
fn turn(sender: u16, most: u16) -> u16 {
    2 * (sender / (2 * most)) + sender % 2
}

/// Of one seed they differ in their last bytes alone, and are ordered by number.
fn name(seed: u64, number: u16) -> Name {
    let mut name = [b'n'; 32];
    name[..8].copy_from_slice(&seed.to_le_bytes());
    name[30..].copy_from_slice(&number.to_be_bytes());
    name
}

/// A call, and the sender that it names.
pub struct Question {
    call: DecisiveCall,
    decisive: Option<u16>,
}

impl Question {
    /// Whether the library answers so.
    pub fn ask_library(&self) -> bool {
        let [f, c, k, n] = self.call.settings;
        let answer = raw::decisive(replica::Settings { f, c, k, n }, black_box(&self.call.record));
        (answer.refusal, answer.found.then_some(answer.sender)) == (0, self.decisive.map(u64::from))
    }

    /// Whether the oracle does.
    pub fn ask_oracle(&self) -> bool {
        black_box(&self.call).make() == Ok(self.decisive)
    }
}

pub fn measure(rounds: usize) -> Table {
    let sizes = SETTINGS.map(|(f, c, k)| 3 * f + 2 * c + k + 1);
    let cases: Vec<(Case, u64)> = Case::ALL.into_iter().flat_map(|case| sizes.map(|n| (case, n))).collect();
    let questions: Vec<Vec<Question>> = cases.iter().map(|(case, n)| questions(*case, *n)).collect();
    let times = measure_calls(&questions, [Question::ask_library, Question::ask_oracle], rounds);
    let labels = |(case, n): &(Case, u64)| vec![n.to_string(), case.words().to_string()];
    let rows = cases.iter().zip(times).map(|(case, times)| Row { labels: labels(case), times });
    let title = "whose timeout decided: the call on a timeout certificate".to_string();
    Table { name: "decisive", title, columns: &["n", "asked about"], against: "oracle", rows: rows.collect() }
}

fn questions(case: Case, n: u64) -> Vec<Question> {
    let settings = case.cluster(n).expect("good settings");
    (0..SEEDS).map(|seed| case.question(settings, seed)).collect()
}
