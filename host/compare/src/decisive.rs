//! The call that names the decisive timeout, on library and oracle.

use std::fmt;

use oracle::Refusal;
use replica::raw::{self, Decisive};
use replica::Settings;
use streams::{DecisiveAnswer, DecisiveCall, DecisiveCoverage, DecisiveStream};

use crate::guarded::guarded;
use crate::step::{bytes, hex, numbers};

/// How many calls follow from a seed: all in one cluster.
const CALLS: u64 = 20;

/// A call that the library didn't answer as the oracle.
#[derive(Clone, Debug, PartialEq, Eq)]
pub struct DecisiveMismatch {
    pub call: DecisiveCall,
    pub library: Decisive,
    pub oracle: Decisive,
    /// Whether the record's bytes, or those beside it, were changed.
    pub changed: bool,
}

/// A line that `compare replay` takes, after one that says what differs.
impl fmt::Display for DecisiveMismatch {
    fn fmt(&self, f: &mut fmt::Formatter<'_>) -> fmt::Result {
        let DecisiveMismatch { call, library, oracle, changed } = self;
        let bytes = if *changed { "the record was changed; " } else { "" };
        writeln!(f, "# {bytes}the library answers {library:?}, the oracle {oracle:?}")?;
        let [f_, c, k, n] = call.settings;
        writeln!(f, "decisive {f_} {c} {k} {n} {}", hex(&call.record))
    }
}

/// Compares at least so many calls, seeds from `first` on, with what `expected` answers.
pub fn compare_decisive(
    first: u64,
    calls: u64,
    expected: impl Fn(&DecisiveCall) -> DecisiveAnswer,
) -> Result<DecisiveCoverage, Box<DecisiveMismatch>> {
    let mut coverage = DecisiveCoverage::default();
    for seed in first..first + calls.div_ceil(CALLS) {
        for call in DecisiveStream::new(seed).take(CALLS as usize) {
            let answer = expected(&call);
            compare(&call, answer)?;
            coverage.count(&call, answer);
        }
    }
    Ok(coverage)
}

/// Replays the line that a mismatch printed; the difference, or none if there is none any more.
pub fn replay_decisive(
    text: &str,
    expected: impl Fn(&DecisiveCall) -> DecisiveAnswer,
) -> Result<Option<DecisiveMismatch>, String> {
    let line = text.lines().find(|line| line.starts_with("decisive ")).ok_or("no line `decisive ..`")?;
    let call = read(line).ok_or_else(|| format!("not `decisive F C K N RECORD`: {line}"))?;
    let answer = expected(&call);
    Ok(compare(&call, answer).err().map(|mismatch| *mismatch))
}

fn read(line: &str) -> Option<DecisiveCall> {
    let words: Vec<&str> = line.split_whitespace().collect();
    let (settings, record) = words.get(1..)?.split_at_checked(4)?;
    Some(DecisiveCall { settings: numbers(settings)?, record: bytes(record)? })
}

/// The library's answer against this one; the record's bytes and those beside it must stay.
fn compare(call: &DecisiveCall, answer: DecisiveAnswer) -> Result<(), Box<DecisiveMismatch>> {
    let [f, c, k, n] = call.settings;
    let (library, changed) = guarded(&call.record, |record| raw::decisive(Settings { f, c, k, n }, record));
    let oracle = written(answer);
    if library == oracle && !changed {
        return Ok(());
    }
    Err(Box::new(DecisiveMismatch { call: call.clone(), library, oracle, changed }))
}

/// The answer as the library writes it.
fn written(answer: DecisiveAnswer) -> Decisive {
    let named = answer.unwrap_or(None);
    Decisive {
        refusal: answer.err().map_or(0, Refusal::number).into(),
        found: named.is_some(),
        sender: named.unwrap_or(0).into(),
    }
}
