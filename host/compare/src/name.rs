//! The call that names a block, on library and oracle.

use std::collections::BTreeMap;
use std::fmt;

use oracle::{Height, Refusal, GENESIS};
use replica::raw::{self, Named};
use replica::Name;
use streams::{NameAnswer, NameCall, NameStream};

use crate::guarded::guarded;
use crate::step::{bytes, hex};

/// A call that the library didn't answer as the oracle.
#[derive(Clone, Debug, PartialEq, Eq)]
pub struct NameMismatch {
    pub call: NameCall,
    pub library: Named,
    pub oracle: Named,
    /// Whether the contents, or the bytes beside them, were changed.
    pub changed: bool,
}

/// A line that `compare replay` takes, after one that says what differs.
impl fmt::Display for NameMismatch {
    fn fmt(&self, f: &mut fmt::Formatter<'_>) -> fmt::Result {
        let NameMismatch { call, library, oracle, changed } = self;
        let bytes = if *changed { "the contents were changed; " } else { "" };
        let answer = |named: &Named| format!("{} {}", named.refusal, hex(&named.name.bytes));
        writeln!(f, "# {bytes}the library answers {}, the oracle {}", answer(library), answer(oracle))?;
        writeln!(f, "name {} {} {}", hex(&call.parent), call.height.0, hex(&call.contents))
    }
}

/// How often each answer was given.
#[derive(Clone, Debug, Default)]
pub struct NameCoverage(BTreeMap<u16, u64>);

impl NameCoverage {
    pub fn calls(&self) -> u64 {
        self.0.values().sum()
    }

    /// The answers that were given.
    pub fn answers(&self) -> Vec<u16> {
        self.0.keys().copied().collect()
    }
}

impl fmt::Display for NameCoverage {
    fn fmt(&self, f: &mut fmt::Formatter<'_>) -> fmt::Result {
        write!(f, "answers:")?;
        self.0.iter().try_for_each(|(answer, times)| write!(f, " {answer}: {times}"))?;
        write!(f, "\n{} calls", self.calls())
    }
}

/// Compares at least so many calls, whole streams with seeds from `first` on, with what `expected` answers.
pub fn compare_names(
    first: u64,
    calls: u64,
    expected: impl Fn(&NameCall) -> NameAnswer,
) -> Result<NameCoverage, Box<NameMismatch>> {
    let mut coverage = NameCoverage::default();
    for seed in first..first + calls.div_ceil(NameStream::CALLS) {
        for call in NameStream::new(seed) {
            let answer = expected(&call);
            compare(&call, answer)?;
            *coverage.0.entry(number(answer)).or_default() += 1;
        }
    }
    Ok(coverage)
}

/// Replays the line that a mismatch printed; the difference, or none if there is none any more.
pub fn replay_name(text: &str, expected: impl Fn(&NameCall) -> NameAnswer) -> Result<Option<NameMismatch>, String> {
    let line = text.lines().find(|line| line.starts_with("name ")).ok_or("no line `name ..`")?;
    let call = read(line).ok_or_else(|| format!("not `name PARENT HEIGHT CONTENTS`: {line}"))?;
    let answer = expected(&call);
    Ok(compare(&call, answer).err().map(|mismatch| *mismatch))
}

fn read(line: &str) -> Option<NameCall> {
    let words: Vec<&str> = line.split_whitespace().collect();
    let [_, parent, height, contents @ ..] = &words[..] else { return None };
    Some(NameCall {
        parent: bytes(&[parent])?.try_into().ok()?,
        height: Height(height.parse().ok()?),
        contents: bytes(contents)?,
    })
}

/// The library's answer against this one; the contents and the bytes beside them must stay.
fn compare(call: &NameCall, answer: NameAnswer) -> Result<(), Box<NameMismatch>> {
    let parent = Name { bytes: call.parent };
    let (library, changed) = guarded(&call.contents, |contents| raw::name(parent, call.height.0, contents));
    let oracle = written(answer);
    if library == oracle && !changed {
        return Ok(());
    }
    Err(Box::new(NameMismatch { call: call.clone(), library, oracle, changed }))
}

/// The answer as the library writes it.
fn written(answer: NameAnswer) -> Named {
    Named { refusal: number(answer).into(), name: Name { bytes: answer.unwrap_or(GENESIS) } }
}

fn number(answer: NameAnswer) -> u16 {
    answer.err().map_or(0, Refusal::number)
}
