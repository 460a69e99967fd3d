//! Which answers and paths a set of streams came upon.

use std::collections::BTreeMap;
use std::fmt;

use oracle::{answer, wire, Leaders, Refusal, Replica, Reply};

use crate::call::Call;
use crate::case::ContentsCase;

/// Kinds of records that a replica knows, its other calls, and all other slices.
#[derive(Clone, Copy, Debug, PartialEq, Eq, PartialOrd, Ord)]
pub enum Kind {
    Vote,
    Commit,
    BlockCertificate,
    Timeout,
    TimeoutCertificate,
    Proposal,
    Block,
    Timer,
    Propose,
    /// Any other kind, and slices too short to have one.
    Foreign,
}

impl Kind {
    pub const ALL: [Kind; 10] = [
        Kind::Vote,
        Kind::Commit,
        Kind::BlockCertificate,
        Kind::Timeout,
        Kind::TimeoutCertificate,
        Kind::Proposal,
        Kind::Block,
        Kind::Timer,
        Kind::Propose,
        Kind::Foreign,
    ];

    pub fn of(call: &Call) -> Kind {
        match call {
            Call::Timer(_) => Kind::Timer,
            Call::Propose(_) | Call::ProposeWith(..) => Kind::Propose,
            Call::Record(bytes) | Call::RecordWith(bytes, _) if bytes.len() < wire::HEADER => Kind::Foreign,
            Call::Record(bytes) | Call::RecordWith(bytes, _) => match wire::kind_of(bytes) {
                wire::kind::VOTE => Kind::Vote,
                wire::kind::COMMIT => Kind::Commit,
                wire::kind::BLOCK_CERTIFICATE => Kind::BlockCertificate,
                wire::kind::TIMEOUT => Kind::Timeout,
                wire::kind::TIMEOUT_CERTIFICATE => Kind::TimeoutCertificate,
                wire::kind::PROPOSAL => Kind::Proposal,
                wire::kind::BLOCK => Kind::Block,
                _ => Kind::Foreign,
            },
        }
    }

    /// Whether contents that come with it must be the block's.
    pub fn brings_block(self) -> bool {
        matches!(self, Kind::Proposal | Kind::Block | Kind::Propose)
    }
}

/// A row of the table: a kind of call without contents, or with.
#[derive(Clone, Copy, Debug, PartialEq, Eq)]
pub enum Row {
    Plain(Kind),
    With(Kind),
}

impl Row {
    const COUNT: usize = 2 * Kind::ALL.len();

    pub fn of(call: &Call) -> Row {
        match call.contents() {
            None => Row::Plain(Kind::of(call)),
            Some(_) => Row::With(Kind::of(call)),
        }
    }

    /// A timer has no contents.
    pub fn all() -> Vec<Row> {
        let with = Kind::ALL.into_iter().filter(|kind| *kind != Kind::Timer).map(Row::With);
        Kind::ALL.into_iter().map(Row::Plain).chain(with).collect()
    }

    fn index(self) -> usize {
        match self {
            Row::Plain(kind) => kind as usize,
            Row::With(kind) => Kind::ALL.len() + kind as usize,
        }
    }

    /// The answers that this row can get from an opened replica: with contents also 16, and 17 where they come with a block.
    fn reachable(self) -> Vec<u16> {
        let (Row::Plain(kind) | Row::With(kind)) = self;
        let (_, answers) = REACHABLE[kind as usize];
        let with: &[u16] = match self {
            Row::Plain(_) => &[],
            Row::With(kind) if kind.brings_block() => &[16, 17],
            Row::With(_) => &[16],
        };
        [answers, with].concat()
    }
}

/// The pairs (row, answer) that calls from an opened replica can come upon.
pub fn reachable() -> Vec<(Row, u16)> {
    Row::all().into_iter().flat_map(|row| row.reachable().into_iter().map(move |answer| (row, answer))).collect()
}

/// The answers that calls without contents can get there, by 01's table.
pub(crate) const REACHABLE: [(Kind, &[u16]); 10] = [
    (Kind::Vote, &[0, 3, 5, 6, 7, 8, 10, 11]),
    (Kind::Commit, &[0, 3, 5, 6, 7, 8, 10, 11]),
    (Kind::BlockCertificate, &[0, 3, 5, 6, 8, 9, 10]),
    (Kind::Timeout, &[0, 3, 4, 5, 6, 7, 8, 9, 10, 11]),
    (Kind::TimeoutCertificate, &[0, 3, 4, 5, 6, 7, 8, 9]),
    (Kind::Proposal, &[0, 3, 4, 5, 6, 7, 8, 9, 10, 11, 12, 13, 14]),
    (Kind::Block, &[0, 3, 5, 6, 10, 11, 12, 13, 14]),
    (Kind::Timer, &[0, 7, 8, 10]),
    (Kind::Propose, &[0, 5, 11, 12, 14, 15]),
    (Kind::Foreign, &[3, 4]),
];

/// Pairs that stand in 01's table and yet don't come up, with the reason.
pub const UNREACHABLE: [(&str, u16, &str); 3] = [
    ("opening", 1, "a stream begins after an accepted opening; tests of the oracle have it"),
    ("all calls", 2, "never given in a state that opening and calls left; tests of the oracle set such states"),
    ("propose", 13, "a held block of height 2^62 takes 2^62 blocks; tests of the oracle set such a state"),
];

/// What calls did, most of it read off the output of accepted ones.
#[derive(Clone, Copy, Debug, PartialEq, Eq)]
pub enum Path {
    /// A: a timeout sent by a call that isn't the timer.
    Echo,
    /// B: a timeout certificate formed.
    TimeoutCertificateFormed,
    /// C: a block certificate formed and sent.
    BlockCertificateFormed,
    /// C: the lock moved and nothing was sent.
    LockMoved,
    /// D by n−p votes.
    FastRelease,
    /// D by 2f+c+1 commits.
    SlowRelease,
    /// Eight releases or more by one call.
    LongRelease,
    /// The best weak certificate moved.
    WeakAdopted,
    /// The view is one of the last eight.
    LastViews,
    /// The store is full.
    FullStore,
    /// A proposal by a leader that the list 0 to n−1 doesn't have.
    LedByList,
    /// None by a leader that only the list 0 to n−1 has: a proposal refused by 6, or a propose by 15.
    NotLedByList,
    /// The same in a view whose entry is no replica's; only garbage has such.
    LedByNobody,
    /// A call accepted where f = 0.
    NoByzantine,
    /// The same where 01's bound kept k out.
    AboveBound,
    /// A cluster of one: proposal, vote, block certificate, commit and release by one call.
    DecidedAlone,
    /// A cluster of one: timeout and timeout certificate by one call.
    TimedOutAlone,
    /// A and B: a timeout after which the own one and the certificate were sent. From an opening f+c+k is 1 then.
    EchoAndCertificate,
    /// C and D: a vote that formed a certificate, and votes that released. From an opening a fast release then takes no more
    /// votes than a block certificate.
    CertificateAndFastRelease,
}

impl Path {
    pub const ALL: [Path; 19] = [
        Path::Echo,
        Path::TimeoutCertificateFormed,
        Path::BlockCertificateFormed,
        Path::LockMoved,
        Path::FastRelease,
        Path::SlowRelease,
        Path::LongRelease,
        Path::WeakAdopted,
        Path::LastViews,
        Path::FullStore,
        Path::LedByList,
        Path::NotLedByList,
        Path::LedByNobody,
        Path::NoByzantine,
        Path::AboveBound,
        Path::DecidedAlone,
        Path::TimedOutAlone,
        Path::EchoAndCertificate,
        Path::CertificateAndFastRelease,
    ];
}

/// One more than the highest answer.
const ANSWERS: usize = 18;

/// Counts of (row, answer) pairs, of paths, and of right and wrong contents by the answer without them.
#[derive(Clone, Debug, Default)]
pub struct Coverage {
    answers: [[u64; ANSWERS]; Row::COUNT],
    paths: [u64; Path::ALL.len()],
    cases: BTreeMap<ContentsCase, u64>,
}

impl Coverage {
    /// Counts one call: the replica before and after it, and what it wrote.
    pub fn count(&mut self, call: &Call, reply: Reply, before: &oracle::Counters, after: &Replica, output: &[u8]) {
        let kind = Kind::of(call);
        self.answers[Row::of(call).index()][usize::from(answer(reply))] += 1;
        self.count_leaders(call, reply, before, after);
        if reply.is_ok() {
            self.count_certificates(kind, before, after, output);
            self.count_releases(kind, after, output);
            self.count_state(before, after);
            self.count_settings(after, output);
        }
    }

    /// By whose turn a proposal, another's or one's own, was taken or refused.
    fn count_leaders(&mut self, call: &Call, reply: Reply, before: &oracle::Counters, after: &Replica) {
        let (view, sender) = match (Kind::of(call), call.record()) {
            (Kind::Propose, _) => (before.view.0, after.own()),
            (Kind::Proposal, Some(bytes)) if bytes.len() >= wire::PROPOSAL => {
                (wire::u64_at(bytes, 8), wire::sender_of(bytes))
            }
            _ => return,
        };
        let view = oracle::View(view.max(1)); // nobody leads view 0
        let leader = after.leader(view);
        let in_turn = Leaders::in_turn(after.settings()).leader(view);
        match reply {
            Ok(_) if leader != in_turn => self.took(Path::LedByList),
            Err(Refusal::Party | Refusal::Turn) if u32::from(leader) >= after.settings().n() => {
                self.took(Path::LedByNobody);
            }
            Err(Refusal::Party | Refusal::Turn) if sender == in_turn && sender != leader => {
                self.took(Path::NotLedByList);
            }
            _ => {}
        }
    }

    /// Counts a call on a state that can't be read.
    pub fn count_refused(&mut self, call: &Call, refusal: Refusal) {
        self.answers[Row::of(call).index()][usize::from(refusal.number())] += 1;
    }

    /// Counts contents that came with a block.
    pub fn count_contents(&mut self, case: Option<ContentsCase>) {
        if let Some(case) = case {
            *self.cases.entry(case).or_default() += 1;
        }
    }

    pub fn of(&self, row: Row, answer: u16) -> u64 {
        self.answers[row.index()][usize::from(answer)]
    }

    pub fn of_case(&self, case: ContentsCase) -> u64 {
        self.cases.get(&case).copied().unwrap_or(0)
    }

    pub fn of_path(&self, path: Path) -> u64 {
        self.paths[path as usize]
    }

    pub fn calls(&self) -> u64 {
        self.answers.iter().flatten().sum()
    }

    pub fn accepted(&self) -> u64 {
        self.answers.iter().map(|row| row[0]).sum()
    }

    pub fn accepted_percent(&self) -> u64 {
        100 * self.accepted() / self.calls().max(1)
    }

    /// Those of these pairs that didn't come up.
    pub fn missing(&self, pairs: &[(Row, u16)]) -> Vec<(Row, u16)> {
        pairs.iter().copied().filter(|(row, answer)| self.of(*row, *answer) == 0).collect()
    }

    /// Pairs that came up although they aren't listed.
    pub fn unlisted(&self, listed: &[(Row, u16)]) -> Vec<(Row, u16)> {
        let all = Row::all().into_iter().flat_map(|row| (0..ANSWERS as u16).map(move |answer| (row, answer)));
        all.filter(|pair| self.of(pair.0, pair.1) > 0 && !listed.contains(pair)).collect()
    }

    /// Reachable cases of contents that didn't come up.
    pub fn missing_cases(&self) -> Vec<ContentsCase> {
        ContentsCase::reachable().into_iter().filter(|case| self.of_case(*case) == 0).collect()
    }

    /// Paths that no call took.
    pub fn missing_paths(&self) -> Vec<Path> {
        Path::ALL.into_iter().filter(|path| self.of_path(*path) == 0).collect()
    }

    fn took(&mut self, path: Path) {
        self.paths[path as usize] += 1;
    }

    fn count_certificates(&mut self, kind: Kind, before: &oracle::Counters, after: &Replica, output: &[u8]) {
        let echoed = kind != Kind::Timer && wrote(output, wire::kind::TIMEOUT);
        let formed = matches!(kind, Kind::Timeout | Kind::Timer) && wrote(output, wire::kind::TIMEOUT_CERTIFICATE);
        for (path, taken) in [
            (Path::Echo, echoed),
            (Path::TimeoutCertificateFormed, formed),
            (Path::EchoAndCertificate, echoed && formed),
        ] {
            if taken {
                self.took(path);
            }
        }
        if kind == Kind::Vote && wrote(output, wire::kind::BLOCK_CERTIFICATE) {
            self.took(Path::BlockCertificateFormed);
        } else if kind == Kind::Vote && before.lock != after.counters.lock {
            self.took(Path::LockMoved);
        }
    }

    fn count_releases(&mut self, kind: Kind, after: &Replica, output: &[u8]) {
        let releases: Vec<_> =
            wire::records(output).filter(|record| wire::kind_of(record) == wire::kind::RELEASE).collect();
        let Some(last) = releases.last() else { return };
        let view = oracle::View(wire::u64_at(last, 8));
        let votes = after.memory.votes.row(view).backers(after.settings().everyone(), &wire::name_at(last, 16));
        if votes.count_ones() >= after.protocol().quorums.fast {
            self.took(Path::FastRelease);
            if kind == Kind::Vote && wrote(output, wire::kind::BLOCK_CERTIFICATE) {
                self.took(Path::CertificateAndFastRelease);
            }
        } else {
            self.took(Path::SlowRelease);
        }
        if releases.len() >= 8 {
            self.took(Path::LongRelease);
        }
    }

    fn count_state(&mut self, before: &oracle::Counters, after: &Replica) {
        if before.best_weak != after.counters.best_weak {
            self.took(Path::WeakAdopted);
        }
        if after.counters.view.0 > oracle::View::MAX.0 - 8 {
            self.took(Path::LastViews);
        }
        if after.memory.store.is_full() {
            self.took(Path::FullStore);
        }
    }

    fn count_settings(&mut self, after: &Replica, output: &[u8]) {
        let settings = after.settings();
        if settings.f() == 0 {
            self.took(Path::NoByzantine);
        }
        if settings.is_above_bound() {
            self.took(Path::AboveBound);
        }
        if settings.n() == 1 {
            let kinds: Vec<u16> = wire::records(output).map(wire::kind_of).collect();
            match kinds[..] {
                [7, 1, 3, 2, 9] => self.took(Path::DecidedAlone),
                [5, 6] => self.took(Path::TimedOutAlone),
                _ => {}
            }
        }
    }
}

/// Whether a record of this kind stands in an output.
fn wrote(output: &[u8], kind: u16) -> bool {
    wire::records(output).any(|record| wire::kind_of(record) == kind)
}

/// A line of the table: a title, and something for each answer but 1, which only openings get.
fn write_line(f: &mut fmt::Formatter<'_>, title: &str, entry: impl Fn(u16) -> u64) -> fmt::Result {
    write!(f, "{title:<26}")?;
    (0..ANSWERS as u16).filter(|answer| *answer != 1).try_for_each(|answer| write!(f, "{:>8}", entry(answer)))?;
    writeln!(f)
}

/// A table of calls by row and answer, one of contents that were right and wrong by the answer without them, then the paths.
impl fmt::Display for Coverage {
    fn fmt(&self, f: &mut fmt::Formatter<'_>) -> fmt::Result {
        write_line(f, "answer", u64::from)?;
        for row in Row::all() {
            write_line(f, &format!("{row:?}"), |answer| self.of(row, answer))?;
        }
        write_line(f, "answer without contents", u64::from)?;
        for kind in Kind::ALL.into_iter().filter(|kind| kind.brings_block()) {
            for (title, right) in [("right", true), ("wrong", false)] {
                let count = |plain| self.of_case(ContentsCase { kind, right, plain });
                write_line(f, &format!("{kind:?}, {title} contents"), count)?;
            }
        }
        for path in Path::ALL {
            writeln!(f, "{:<28}{:>10}", format!("{path:?}"), self.of_path(path))?;
        }
        write!(f, "{} calls, {} % accepted", self.calls(), self.accepted_percent())
    }
}
