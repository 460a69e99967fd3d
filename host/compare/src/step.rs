//! One call of a run, and how much of each region is lent for it. As text a step is one line, to be replayed.

use std::fmt;
use std::str::FromStr;

use oracle::Replica;
use streams::{Call, ContentsCase};

#[derive(Clone, Debug, PartialEq, Eq)]
pub enum AnyCall {
    /// f, c, k, n and own, any numbers, and a leader list of any bytes.
    Open([u64; 5], Vec<u8>),
    Call(Call),
}

#[derive(Clone, Debug, PartialEq, Eq)]
pub struct Step {
    /// Of memory in bytes, of the store in blocks, of the output in bytes.
    pub lent: [usize; 3],
    pub call: AnyCall,
}

impl Step {
    /// The case of the contents that come with a block.
    pub(crate) fn contents_case(&self, replica: &Replica) -> Option<ContentsCase> {
        match &self.call {
            AnyCall::Open(..) => None,
            AnyCall::Call(call) => ContentsCase::of(replica, call),
        }
    }
}

impl fmt::Display for Step {
    fn fmt(&self, f: &mut fmt::Formatter<'_>) -> fmt::Result {
        let [memory, store, output] = self.lent;
        write!(f, "{memory} {store} {output} ")?;
        match &self.call {
            AnyCall::Open(numbers, leaders) => {
                write!(f, "open")?;
                numbers.iter().try_for_each(|number| write!(f, " {number}"))?;
                write!(f, " {}", hex(leaders))
            }
            AnyCall::Call(Call::Record(bytes)) => write!(f, "record {}", hex(bytes)),
            AnyCall::Call(Call::Timer(view)) => write!(f, "timer {view}"),
            AnyCall::Call(Call::Propose(name)) => write!(f, "propose {}", hex(name)),
            AnyCall::Call(Call::RecordWith(bytes, contents)) => {
                write!(f, "record {} with {}", hex(bytes), hex(contents))
            }
            AnyCall::Call(Call::ProposeWith(name, contents)) => {
                write!(f, "propose {} with {}", hex(name), hex(contents))
            }
        }
    }
}

pub(crate) fn hex(bytes: &[u8]) -> String {
    bytes.iter().map(|byte| format!("{byte:02x}")).collect()
}

impl FromStr for Step {
    type Err = String;

    fn from_str(line: &str) -> Result<Step, String> {
        parse(line).ok_or_else(|| format!("not a step: {line}"))
    }
}

fn parse(line: &str) -> Option<Step> {
    let words: Vec<&str> = line.split_whitespace().collect();
    let (lent, rest) = words.split_at_checked(3)?;
    let lent = numbers(lent)?.map(|length| length as usize);
    let call = match rest {
        ["open", rest @ ..] => {
            let (five, leaders) = rest.split_at_checked(5)?;
            AnyCall::Open(numbers(five)?, bytes(leaders)?)
        }
        _ => AnyCall::Call(parse_call(rest)?),
    };
    Some(Step { lent, call })
}

/// Contents stand behind the word `with`, if any came.
fn parse_call(words: &[&str]) -> Option<Call> {
    let with = words.iter().position(|word| *word == "with");
    let call = match &words[..with.unwrap_or(words.len())] {
        ["record", record @ ..] => Call::Record(bytes(record)?),
        ["timer", view] => Call::Timer(view.parse().ok()?),
        ["propose", name] => Call::Propose(unhex(name)?.try_into().ok()?),
        _ => return None,
    };
    match with {
        None => Some(call),
        Some(_) if matches!(call, Call::Timer(_)) => None,
        Some(at) => Some(call.with(bytes(&words[at + 1..])?)),
    }
}

pub(crate) fn numbers<const COUNT: usize>(words: &[&str]) -> Option<[u64; COUNT]> {
    let numbers = words.iter().map(|word| word.parse().ok()).collect::<Option<Vec<u64>>>()?;
    numbers.try_into().ok()
}

/// One word, or none for no bytes.
pub(crate) fn bytes(words: &[&str]) -> Option<Vec<u8>> {
    match words {
        [] => Some(Vec::new()),
        [word] => unhex(word),
        _ => None,
    }
}

fn unhex(text: &str) -> Option<Vec<u8>> {
    let digits = text.chars().map(|digit| digit.to_digit(16)).collect::<Option<Vec<u32>>>()?;
    let pairs = digits.chunks_exact(2);
    pairs.remainder().is_empty().then(|| pairs.map(|pair| (pair[0] * 16 + pair[1]) as u8).collect())
}

#[cfg(test)]
mod tests {
    use super::*;

    #[test]
    fn a_printed_step_reads_back() {
        for call in [
            AnyCall::Open([1, 1, 0, 6, u64::MAX], vec![]),
            AnyCall::Open([1, 1, 0, 6, 2], vec![0, 5, 255]),
            AnyCall::Call(Call::Record(vec![])),
            AnyCall::Call(Call::Record(vec![0, 16, 255])),
            AnyCall::Call(Call::Timer(7)),
            AnyCall::Call(Call::Propose([9; 32])),
            AnyCall::Call(Call::RecordWith(vec![], vec![])),
            AnyCall::Call(Call::RecordWith(vec![1], vec![])),
            AnyCall::Call(Call::RecordWith(vec![], vec![2])),
            AnyCall::Call(Call::RecordWith(vec![0, 16, 255], vec![7; 4_097])),
            AnyCall::Call(Call::ProposeWith([9; 32], vec![])),
            AnyCall::Call(Call::ProposeWith([9; 32], vec![0, 1])),
        ] {
            let step = Step { lent: [34_568, 128, 0], call };
            assert_eq!(step.to_string().parse(), Ok(step));
        }
        for line in [
            "",
            "1 2 3",
            "1 2 3 open 1 1 0 6",
            "1 2 3 open 1 1 0 6 2 00 05",
            "1 2 3 record 0",
            "1 2 3 record 00 with 1",
            "1 2 3 record 00 with 01 with 02",
            "1 2 3 timer 1 with 01",
            "1 2 3 with 01",
            "1 2 timer 1",
        ] {
            assert_eq!(line.parse::<Step>(), Err(format!("not a step: {line}")));
        }
    }
}
