//! Streams played on a replica, and as input files of the run program.

use oracle::{run, wire, Refusal, Replica};

use crate::call::Call;
use crate::case::ContentsCase;
use crate::coverage::Coverage;
use crate::opening::Opening;
use crate::random::Random;
use crate::stream::Stream;

/// A stream that was played from an opening.
pub struct Played {
    pub opening: Opening,
    pub calls: Vec<Call>,
    pub replica: Replica,
}

/// Plays so many calls of a stream on a replica and counts what they cover. None comes with contents.
pub fn play(opening: Opening, seed: u64, count: usize, coverage: &mut Coverage) -> Played {
    play_stream(opening, Stream::new(seed), count, coverage)
}

/// The same of any stream.
pub fn play_stream(opening: Opening, mut stream: Stream, count: usize, coverage: &mut Coverage) -> Played {
    let mut replica = opening.open();
    let mut calls = Vec::with_capacity(count);
    let mut out = Vec::with_capacity(1 << 15);
    for _ in 0..count {
        let call = stream.next(&replica);
        let before = replica.counters;
        coverage.count_contents(ContentsCase::of(&replica, &call));
        out.clear();
        let reply = call.make(&mut replica, &mut out);
        coverage.count(&call, reply, &before, &replica, &out);
        calls.push(call);
    }
    Played { opening, calls, replica }
}

/// An input of the run program with so many calls. A record that the program answers with 3 ends a run, so it is
/// left out but as the last one.
pub fn input(opening: Opening, seed: u64, count: usize) -> Vec<u8> {
    assert!(opening.is_in_turn(), "the run program opens with 0 to n−1");
    let mut replica = opening.open();
    let mut stream = Stream::new(seed);
    let mut random = Random::new(seed ^ 0x0072_756E);
    let mut out = Vec::new();
    let mut bytes = opening.encode();
    let mut written = 0;
    while written < count {
        let record = as_input(stream.next(&replica), opening, &mut random);
        out.clear();
        let stops = run::step(&mut replica, &record, &mut out) == Err(Refusal::Length);
        if !stops || written + 1 == count {
            bytes.extend_from_slice(&record);
            written += 1;
        }
    }
    bytes
}

/// The call as a record. The program's own three kinds are at times spoiled: a wrong sender or length, or a second
/// opening.
fn as_input(call: Call, opening: Opening, random: &mut Random) -> Vec<u8> {
    let own_kind = !matches!(call, Call::Record(_));
    let mut record = call.encode();
    match random.below(200) {
        0 => record = opening.encode(),
        1..12 if own_kind => record[6 + random.index(2)] = 1,
        12..16 if own_kind => {
            record.push(0);
            record[0] += 1;
        }
        _ => {}
    }
    record
}

impl Opening {
    /// The record that opens a run.
    pub fn encode(&self) -> Vec<u8> {
        let mut bytes = Vec::new();
        wire::write_opening(&mut bytes, self.numbers().map(|number| number as u16));
        bytes
    }
}
