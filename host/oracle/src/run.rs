//! The run program of 01 ("Known results"): records in, one line for each call out.

use std::io::{self, Write};

use crate::faults::Faults;
use crate::leaders::Leaders;
use crate::replica::Replica;
use crate::settings::Settings;
use crate::types::{answer, Refusal, Reply, View};
use crate::wire::{self, kind};

#[derive(Clone, Copy, Debug, Default)]
pub struct Options {
    /// Errors built into the replica.
    pub faults: Faults,
    /// Each line ends with the call's output in hex, `-` if there is none.
    pub trace: bool,
}

/// Runs a whole input.
pub fn run(input: &[u8], options: Options, lines: &mut impl Write) -> io::Result<()> {
    writeln!(lines, "call answer view timed height")?;
    let Some((mut replica, mut rest)) = open(input, options.faults) else {
        return writeln!(lines, "0 1 0 0 0");
    };
    let mut out = Vec::with_capacity(1 << 15);
    let mut call = 0u64;
    while !rest.is_empty() {
        call += 1;
        out.clear();
        let reply = match cut(rest) {
            Some((record, left)) => {
                rest = left;
                step(&mut replica, record, &mut out)
            }
            None => Err(Refusal::Length),
        };
        write_line(lines, call, reply, &replica, options.trace.then_some(&out))?;
        if reply == Err(Refusal::Length) {
            break; // "a record refused by 3, cut short or over 3,696 bytes prints its line with answer 3 and stops"
        }
    }
    Ok(())
}

fn write_line(
    lines: &mut impl Write,
    call: u64,
    reply: Reply,
    replica: &Replica,
    trace: Option<&Vec<u8>>,
) -> io::Result<()> {
    let counters = &replica.counters;
    let (view, timed, height) = (counters.view.0, counters.timed.0, counters.tip.height.0);
    write!(lines, "{call} {} {view} {timed} {height}", answer(reply))?;
    if let Some(output) = trace {
        write!(lines, " {}", hex(output))?;
    }
    writeln!(lines)
}

/// `-` for no bytes.
pub(crate) fn hex(bytes: &[u8]) -> String {
    if bytes.is_empty() {
        return "-".to_string();
    }
    bytes.iter().map(|byte| format!("{byte:02x}")).collect()
}

/// The replica that the first record opens, and the input after it. 02: "the run program opens with" the list 0 to n−1.
fn open(input: &[u8], faults: Faults) -> Option<(Replica, &[u8])> {
    let (record, rest) = cut(input)?;
    let [f, c, k, n, own] = opening(record)?.map(u64::from);
    let leaders = Leaders::in_turn(Settings::new(f, c, k)?);
    let replica = Replica::open(f, c, k, n, own, leaders.list()).ok()?;
    Some((replica.with_faults(faults), rest))
}

/// The five numbers of a well-formed kind 12.
pub fn opening(record: &[u8]) -> Option<[u16; 5]> {
    let well_formed = record.len() == wire::OPENING
        && wire::kind_of(record) == kind::OPENING
        && wire::sender_of(record) == 0
        && record[18..] == [0; 6];
    well_formed.then(|| [8, 10, 12, 14, 16].map(|at| wire::u16_at(record, at)))
}

/// The next record by its length field and what follows; none if it is cut short, under 8 or over 3,696 bytes.
pub fn cut(input: &[u8]) -> Option<(&[u8], &[u8])> {
    if input.len() < wire::HEADER {
        return None;
    }
    let length = wire::u32_at(input, 0) as usize;
    let fits = (wire::HEADER..=wire::LONGEST).contains(&length) && length <= input.len();
    fits.then(|| input.split_at(length))
}

/// One record as the run program takes it, whole and alone: kinds 10 and 11 are calls of their own, with sender 0;
/// every other record goes to the replica.
pub fn step(replica: &mut Replica, record: &[u8], out: &mut Vec<u8>) -> Reply {
    judge_framing(record)?;
    match wire::kind_of(record) {
        kind::TIMER => replica.timer(View(wire::u64_at(record, 8)), out),
        kind::PROPOSE => replica.propose(wire::name_at(record, 8), out),
        _ => replica.record(record, out),
    }
}

/// What the program itself refuses, before any call.
pub fn judge_framing(record: &[u8]) -> Result<(), Refusal> {
    let Some((record, [])) = cut(record) else {
        return Err(Refusal::Length);
    };
    match wire::kind_of(record) {
        kind::TIMER => judge_own_kind(record, wire::TIMER),
        kind::PROPOSE => judge_own_kind(record, wire::PROPOSE),
        _ => Ok(()),
    }
}

fn judge_own_kind(record: &[u8], length: usize) -> Result<(), Refusal> {
    if record.len() != length {
        Err(Refusal::Length)
    } else if wire::sender_of(record) != 0 {
        Err(Refusal::Party)
    } else {
        Ok(())
    }
}
