//! Counters that show what a run has reached, as a table.

use std::fmt;

use oracle::wire::{self, kind, Progress, Record, Timeouts};
use oracle::{Certificate, CertificateKind, Name, Protocol};

/// A call on a replica, with contents or without.
#[derive(Clone, Copy, Debug)]
pub enum Call<'a> {
    Record(&'a [u8], Option<&'a [u8]>),
    Timer(u64),
    Propose(Name, Option<&'a [u8]>),
    /// By the name that these contents make.
    ProposeContents(&'a [u8]),
}

impl<'a> Call<'a> {
    /// The contents that it comes with.
    pub fn contents(&self) -> Option<&'a [u8]> {
        match *self {
            Call::Record(_, contents) | Call::Propose(_, contents) => contents,
            Call::ProposeContents(contents) => Some(contents),
            Call::Timer(_) => None,
        }
    }
}

/// Answers go up to 17.
const ANSWERS: usize = 18;

/// Columns of the table of answers.
const COLUMNS: [&str; 11] =
    ["vote", "commit", "blockc", "timeout", "timeoutc", "proposal", "block", "other", "timer", "propose", "open"];
const OTHER: usize = 7;
const TIMER: usize = 8;
const PROPOSE: usize = 9;
const OPEN: usize = 10;

impl Call<'_> {
    fn column(&self) -> usize {
        match self {
            Call::Timer(_) => TIMER,
            Call::Propose(..) | Call::ProposeContents(_) => PROPOSE,
            Call::Record(bytes, _) if bytes.len() < wire::HEADER => OTHER,
            Call::Record(bytes, _) => match wire::kind_of(bytes) {
                kind::VOTE => 0,
                kind::COMMIT => 1,
                kind::BLOCK_CERTIFICATE => 2,
                kind::TIMEOUT => 3,
                kind::TIMEOUT_CERTIFICATE => 4,
                kind::PROPOSAL => 5,
                kind::BLOCK => 6,
                _ => OTHER,
            },
        }
    }
}

/// Where a safe certificate comes from.
#[derive(Clone, Copy, Debug, PartialEq, Eq)]
pub enum SafeKind {
    /// A block certificate is its own.
    Itself,
    CarriedBlock,
    CarriedWeak,
    BuiltWeak,
    Genesis,
}

impl SafeKind {
    /// Of a timeout certificate.
    pub fn of(protocol: &Protocol, timeouts: Timeouts<'_>) -> SafeKind {
        let safe = protocol.safe_certificate(timeouts);
        let same = |one: Certificate| one.kind == safe.kind && one.view == safe.view && one.name == safe.name;
        match safe.kind {
            _ if safe == Certificate::GENESIS => SafeKind::Genesis,
            CertificateKind::Block => SafeKind::CarriedBlock,
            CertificateKind::Weak if timeouts.iter().any(|timeout| same(timeout.certificate)) => SafeKind::CarriedWeak,
            CertificateKind::Weak => SafeKind::BuiltWeak,
        }
    }
}

/// Rows of the table beside the answers.
#[derive(Clone, Copy, Debug, PartialEq, Eq)]
pub enum Row {
    RuleA,
    RuleB,
    RuleC,
    RuleD,
    AThenB,
    CThenD,
    FastRelease,
    SlowRelease,
    BothReleases,
    LongWalk,
    SafeItself,
    SafeCarriedBlock,
    SafeCarriedWeak,
    SafeBuiltWeak,
    SafeGenesis,
    EnteredByBlock,
    EnteredByTimeouts,
    Skipped,
    Lost,
    Doubled,
    Reordered,
    CutOff,
    Stopped,
    Resumed,
    Lies,
    Equivocations,
    Barred,
    LedInTurn,
    LedTwice,
    NeverLeads,
    LiarsLead,
    ByContents,
    OtherContents,
    NoBytes,
    LongContents,
    ContentsBeside,
    TakenName,
    Runs,
}

impl Row {
    const ALL: [(Row, &'static str); 38] = [
        (Row::RuleA, "rule A: timeout echoed"),
        (Row::RuleB, "rule B: timeout certificate formed"),
        (Row::RuleC, "rule C: block certificate formed (and sent)"),
        (Row::RuleD, "rule D: walks"),
        (Row::AThenB, "rules A and B by one timeout"),
        (Row::CThenD, "rule C and a fast release by one vote"),
        (Row::FastRelease, "release by votes alone (fast)"),
        (Row::SlowRelease, "release by commits alone (slow)"),
        (Row::BothReleases, "release by votes and commits at once"),
        (Row::LongWalk, "walk over several blocks"),
        (Row::SafeItself, "safe: a block certificate itself"),
        (Row::SafeCarriedBlock, "safe: block certificate carried in a timeout"),
        (Row::SafeCarriedWeak, "safe: weak certificate carried in a timeout"),
        (Row::SafeBuiltWeak, "safe: weak certificate built from high votes"),
        (Row::SafeGenesis, "safe: genesis certificate"),
        (Row::EnteredByBlock, "view entered by a block certificate"),
        (Row::EnteredByTimeouts, "view entered by a timeout certificate"),
        (Row::Skipped, "views jumped over at once"),
        (Row::Lost, "network: records lost"),
        (Row::Doubled, "network: records doubled"),
        (Row::Reordered, "network: records out of order"),
        (Row::CutOff, "host: calls cut off"),
        (Row::Stopped, "host: stops"),
        (Row::Resumed, "host: resumes"),
        (Row::Lies, "Byzantine: records handed in"),
        (Row::Equivocations, "Byzantine: proposals beside another one of that view"),
        (Row::Barred, "records that the premises keep out"),
        (Row::LedInTurn, "leader list: 0 to n−1"),
        (Row::LedTwice, "leader list: with repeats"),
        (Row::NeverLeads, "leader list: an honest replica never leads"),
        (Row::LiarsLead, "leader list: Byzantine replicas lead most views"),
        (Row::ByContents, "contents: runs in which every block comes with its own"),
        (Row::OtherContents, "contents: a block with those of another"),
        (Row::NoBytes, "contents: a block with contents of 0 bytes that aren't its own"),
        (Row::LongContents, "contents: of more than 4,096 bytes"),
        (Row::ContentsBeside, "contents: beside a record of another kind"),
        (Row::TakenName, "contents: a block by another one's name, with that one's contents"),
        (Row::Runs, "runs"),
    ];
}

#[derive(Clone, Debug)]
pub struct Coverage {
    answers: [[u64; ANSWERS]; COLUMNS.len()],
    rows: [u64; Row::ALL.len()],
}

impl Default for Coverage {
    fn default() -> Coverage {
        Coverage { answers: [[0; ANSWERS]; COLUMNS.len()], rows: [0; Row::ALL.len()] }
    }
}

impl Coverage {
    pub fn add(&mut self, row: Row, times: u64) {
        self.rows[row as usize] += times;
    }

    pub fn count(&self, row: Row) -> u64 {
        self.rows[row as usize]
    }

    pub fn answer(&mut self, call: &Call<'_>, answer: u16) {
        self.answers[call.column()][usize::from(answer)] += 1;
    }

    pub fn opening(&mut self, answer: u16) {
        self.answers[OPEN][usize::from(answer)] += 1;
    }

    /// How often a call was answered with this number.
    pub fn answered(&self, answer: u16) -> u64 {
        self.answers.iter().map(|column| column[usize::from(answer)]).sum()
    }

    /// The same for one kind of call, as the table heads its column.
    pub fn answered_to(&self, heading: &str, answer: u16) -> u64 {
        let column = COLUMNS.iter().position(|column| *column == heading).expect("a column of the table");
        self.answers[column][usize::from(answer)]
    }

    pub fn merge(&mut self, other: &Coverage) {
        let cells = self.answers.iter_mut().flatten().zip(other.answers.iter().flatten());
        cells.for_each(|(cell, more)| *cell += more);
        self.rows.iter_mut().zip(other.rows).for_each(|(row, more)| *row += more);
    }

    /// What stands in the table and was never reached.
    pub fn empty_rows(&self) -> Vec<String> {
        let numbers = 0..ANSWERS as u16;
        let answers = numbers.filter(|&answer| self.answered(answer) == 0).map(|answer| format!("answer {answer}"));
        let rows = Row::ALL.iter().filter(|(row, _)| self.count(*row) == 0).map(|(_, label)| label.to_string());
        answers.chain(rows).collect()
    }

    /// Which rules ran in an accepted call, read off its output: what the event itself sends is taken away.
    pub fn accepted(&mut self, protocol: &Protocol, view: u64, call: &Call<'_>, output: &[u8]) {
        let event = self.event(protocol, view, call);
        let count = |wanted| wire::records(output).filter(|record| wire::kind_of(record) == wanted).count() as u64;
        let echoed = count(kind::TIMEOUT) - event.timeouts;
        let formed = count(kind::TIMEOUT_CERTIFICATE) - event.timeout_certificates;
        self.add(Row::RuleA, echoed);
        self.add(Row::RuleB, formed);
        self.add(Row::RuleC, count(kind::BLOCK_CERTIFICATE) - event.block_certificates);
        match call {
            Call::Record(bytes, _) if wire::kind_of(bytes) == kind::TIMEOUT => {
                self.add(Row::AThenB, echoed.min(formed));
            }
            Call::Record(bytes, _) if wire::kind_of(bytes) == kind::VOTE => {
                self.add(Row::CThenD, u64::from(releases_fast_what_it_forms(protocol, output)));
            }
            _ => {}
        }
        self.add(Row::EnteredByBlock, count(kind::BLOCK_CERTIFICATE));
        self.add(Row::EnteredByTimeouts, count(kind::TIMEOUT_CERTIFICATE));
        let formed = wire::records(output).filter(|record| wire::kind_of(record) == kind::TIMEOUT_CERTIFICATE);
        for record in formed.skip(event.timeout_certificates as usize) {
            self.safe(SafeKind::of(protocol, Timeouts::of(record)));
        }
    }

    fn event(&mut self, protocol: &Protocol, view: u64, call: &Call<'_>) -> Event {
        let bytes = match call {
            Call::Record(bytes, _) => bytes,
            Call::Timer(_) => return Event { timeouts: 1, ..Event::default() },
            Call::Propose(..) | Call::ProposeContents(_) => return Event::default(),
        };
        let (progress, moves) = match wire::read(bytes, protocol.settings.n()) {
            Ok(Record::BlockCertificate { certificate, .. }) => {
                let moves = certificate.view.0 >= view;
                (Progress::Block(certificate), moves)
            }
            Ok(Record::TimeoutCertificate { certificate, .. }) => (Progress::Timeouts(certificate), true),
            Ok(Record::Proposal(proposal)) => (proposal.progress, proposal.view.0 > view),
            _ => return Event::default(),
        };
        let sent = u64::from(moves);
        match progress {
            Progress::Block(_) => {
                self.safe(SafeKind::Itself);
                Event { block_certificates: sent, ..Event::default() }
            }
            Progress::Timeouts(certificate) => {
                self.safe(SafeKind::of(protocol, certificate.timeouts));
                Event { timeout_certificates: sent, ..Event::default() }
            }
        }
    }

    fn safe(&mut self, kind: SafeKind) {
        let row = match kind {
            SafeKind::Itself => Row::SafeItself,
            SafeKind::CarriedBlock => Row::SafeCarriedBlock,
            SafeKind::CarriedWeak => Row::SafeCarriedWeak,
            SafeKind::BuiltWeak => Row::SafeBuiltWeak,
            SafeKind::Genesis => Row::SafeGenesis,
        };
        self.add(row, 1);
    }
}

/// Whether a vote's call forms a block certificate with signers enough for a fast release, and releases.
fn releases_fast_what_it_forms(protocol: &Protocol, output: &[u8]) -> bool {
    let any = |fits: &dyn Fn(&[u8]) -> bool| wire::records(output).any(fits);
    let is_release = |record: &[u8]| wire::kind_of(record) == kind::RELEASE;
    let is_enough = |record: &[u8]| match wire::read(record, protocol.settings.n()) {
        Ok(Record::BlockCertificate { certificate, .. }) => certificate.signers.count_ones() >= protocol.quorums.fast,
        _ => false,
    };
    any(&is_enough) && any(&is_release)
}

/// What an event sends by itself, before the rules.
#[derive(Default)]
struct Event {
    timeouts: u64,
    timeout_certificates: u64,
    block_certificates: u64,
}

impl fmt::Display for Coverage {
    fn fmt(&self, f: &mut fmt::Formatter<'_>) -> fmt::Result {
        write!(f, "{:>6} {:>10}", "answer", "all")?;
        COLUMNS.iter().try_for_each(|column| write!(f, " {column:>9}"))?;
        writeln!(f)?;
        for answer in 0..ANSWERS as u16 {
            write!(f, "{answer:>6} {:>10}", self.answered(answer))?;
            let cells = self.answers.iter().map(|column| column[usize::from(answer)]);
            for cell in cells {
                write!(f, " {cell:>9}")?;
            }
            writeln!(f)?;
        }
        writeln!(f)?;
        Row::ALL.iter().try_for_each(|(row, label)| writeln!(f, "{:>12}  {label}", self.count(*row)))
    }
}

/// One replica's kept votes and commits by view and name, followed from outside to tell fast from slow releases. View
/// v stands in row v mod 16, which is more than a replica keeps.
#[derive(Clone, Debug, Default)]
pub struct Tally {
    rows: [TallyRow; 16],
}

#[derive(Clone, Debug, Default)]
struct TallyRow {
    view: u64,
    entries: Vec<TallyEntry>,
}

#[derive(Clone, Debug)]
struct TallyEntry {
    name: Name,
    votes: u64,
    commits: u64,
}

impl Tally {
    /// Notes a vote or a commit that the replica accepted or made.
    pub fn note(&mut self, record: &[u8]) {
        let bit = 1u64 << wire::sender_of(record);
        let (vote, commit) = match wire::kind_of(record) {
            kind::VOTE => (bit, 0),
            kind::COMMIT => (0, bit),
            _ => return,
        };
        let (view, name) = (wire::u64_at(record, 8), wire::name_at(record, 16));
        let row = &mut self.rows[(view % 16) as usize];
        if row.view != view {
            *row = TallyRow { view, entries: Vec::new() };
        }
        match row.entries.iter_mut().find(|entry| entry.name == name) {
            Some(entry) => {
                entry.votes |= vote;
                entry.commits |= commit;
            }
            None => row.entries.push(TallyEntry { name, votes: vote, commits: commit }),
        }
    }

    /// How many votes and commits stand for a pair.
    fn count(&self, view: u64, name: &Name) -> (u32, u32) {
        let row = &self.rows[(view % 16) as usize];
        let entry = row.entries.iter().find(|entry| row.view == view && entry.name == *name);
        entry.map_or((0, 0), |entry| (entry.votes.count_ones(), entry.commits.count_ones()))
    }

    /// By which quorum a walk that ended at this name was decided.
    pub fn release(&self, protocol: &Protocol, view: u64, name: &Name) -> Option<Row> {
        let (votes, commits) = self.count(view, name);
        match (votes >= protocol.quorums.fast, commits >= protocol.quorums.slow) {
            (true, true) => Some(Row::BothReleases),
            (true, false) => Some(Row::FastRelease),
            (false, true) => Some(Row::SlowRelease),
            (false, false) => None,
        }
    }
}
