//! Every kind of call, accepted and refused, on random streams.

use std::fmt;

use streams::{play, Coverage, Kind, Opening};

use crate::measure::{Mark, Script, Times};
use crate::sides::{Oracle, Side};
use crate::table::{Row, Table};

/// Streams of 1,500 calls, so that little of the time is spent in the last views.
const STREAM: usize = 1500;

/// Nanoseconds of library and oracle; none where there is no such call.
type Pair = Option<[f64; 2]>;

/// The figures of one cluster: what a row is of, accepted and refused.
pub struct Kinds {
    heading: String,
    n: u64,
    rows: Vec<(String, [Pair; 2])>,
}

/// Clusters of 6, 13 and 32.
pub fn measure(calls: usize, rounds: usize) -> [Kinds; 3] {
    let clusters = [(1, 1, 0), (2, 2, 2), (7, 5, 0)];
    let streams = clusters.map(|settings| streams(settings, calls.div_ceil(STREAM) as u64));
    let cases = streams.map(|(scripts, coverage)| (scripts, heading(&coverage, rounds)));
    let (scripts, headings): (Vec<Vec<Script>>, Vec<String>) = cases.into_iter().unzip();
    let times = Times::measure(&scripts, rounds);
    std::array::from_fn(|i| Kinds::of(scripts[i][0].opening.n, &headings[i], &times[i]))
}

impl Kinds {
    fn of(n: u64, heading: &str, times: &Times) -> Kinds {
        let pairs = |kinds: &[Kind]| {
            let accepted = times.mean(|mark| matches!(mark, Mark::Accepted(kind) if kinds.contains(&kind)));
            let refused = times.mean(|mark| matches!(mark, Mark::Refused(kind) if kinds.contains(&kind)));
            [accepted, refused]
        };
        let mut rows: Vec<_> = Kind::ALL.iter().map(|&kind| (format!("{kind:?}"), pairs(&[kind]))).collect();
        rows.push(("all".to_string(), pairs(&Kind::ALL)));
        Kinds { heading: format!("n {n}: {heading}"), n, rows }
    }

    /// The same as rows for CSV.
    pub fn rows(&self) -> Vec<Row> {
        let mut rows = Vec::new();
        for (title, pairs) in &self.rows {
            for (answer, pair) in ["accepted", "refused"].iter().zip(pairs) {
                let labels = vec![self.n.to_string(), title.clone(), answer.to_string()];
                rows.extend(pair.map(|times| Row { labels, times }));
            }
        }
        rows
    }
}

/// All of them as one table.
pub fn table(kinds: &[Kinds]) -> Table {
    let rows = kinds.iter().flat_map(Kinds::rows).collect();
    let title = "every kind of call".to_string();
    Table { name: "kinds", title, columns: &["n", "call", "answer"], against: "oracle", rows }
}

fn heading(coverage: &Coverage, rounds: usize) -> String {
    format!("{} calls, {} % accepted, {rounds} rounds", coverage.calls(), coverage.accepted_percent())
}

fn streams((f, c, k): (u64, u64, u64), count: u64) -> (Vec<Script>, Coverage) {
    let n = 3 * f + 2 * c + k + 1;
    let mut coverage = Coverage::default();
    let opening = |seed| Opening::new(f, c, k, seed % n).expect("good settings");
    let scripts = (0..count).map(|seed| stream(opening(seed), seed, &mut coverage)).collect();
    (scripts, coverage)
}

fn stream(opening: Opening, seed: u64, coverage: &mut Coverage) -> Script {
    let mut oracle = Oracle::new(opening);
    let calls = play(opening, seed, STREAM, coverage).calls.into_iter();
    let marked = calls.map(|call| {
        let accepted = oracle.make(&call);
        let mark = Mark::of(&call, accepted);
        (call, mark)
    });
    Script { opening, calls: marked.collect() }
}

/// A line a kind: nanoseconds of library and oracle and their ratio, for accepted calls and for refused ones.
impl fmt::Display for Kinds {
    fn fmt(&self, f: &mut fmt::Formatter<'_>) -> fmt::Result {
        writeln!(f, "{}", self.heading)?;
        writeln!(f, "{:<20}{:^26}{:^26}", "ns a call", "accepted", "refused")?;
        writeln!(f, "{:<20}{1:>9}{2:>9}{3:>8}{1:>9}{2:>9}{3:>8}", "", "library", "oracle", "ratio")?;
        for (title, pairs) in &self.rows {
            write!(f, "{title:<20}")?;
            pairs.iter().try_for_each(|pair| write_pair(f, *pair))?;
            writeln!(f)?;
        }
        Ok(())
    }
}

fn write_pair(f: &mut fmt::Formatter<'_>, pair: Pair) -> fmt::Result {
    match pair {
        Some([library, oracle]) => write!(f, "{library:>9.0}{oracle:>9.0}{:>8.2}", library / oracle),
        None => write!(f, "{:>9}{:>9}{:>8}", "-", "-", "-"),
    }
}
