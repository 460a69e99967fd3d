//! Contents of every length, and names that differ from the digest in one bit, beside a block, a proposal and a propose call, on
//! library and oracle.

use compare::{AnyCall, Pair, Step};
use oracle::lent::Rooms;
use oracle::{answer, block_name, wire, Block, Certificate, Faults, Height, Name, View, CONTENTS, GENESIS};
use streams::{Call, Random};

/// Both answer this, and leave the same bytes.
fn answers(pair: &mut Pair, call: AnyCall, expected: u16) {
    let step = Step { lent: Rooms::empty().lent, call };
    let shown = |text: String| text.chars().take(300).collect::<String>();
    match pair.step(&step) {
        Ok(reply) => assert_eq!(answer(reply), expected, "{}", shown(step.to_string())),
        Err(difference) => panic!("{difference}: {}", shown(step.to_string())),
    }
}

fn open(pair: &mut Pair, own: u64) {
    answers(pair, AnyCall::Open([1, 1, 0, 6, own], vec![0, 1, 2, 3, 4, 5]), 0);
}

fn record(write: impl FnOnce(&mut Vec<u8>)) -> Call {
    let mut bytes = Vec::new();
    write(&mut bytes);
    Call::Record(bytes)
}

/// The calls that bring a first block of this name, each with the own number of a replica that takes it.
fn calls(name: Name) -> [(u64, Call); 3] {
    let block = Block { name, parent: GENESIS, height: Height(1) };
    let mut progress = Vec::new();
    wire::write_block_certificate(&mut progress, 0, &Certificate::GENESIS);
    [
        (1, record(|out| wire::write_block(out, 3, &block))),
        (1, record(|out| wire::write_proposal(out, 0, View(1), &block, &progress))),
        (0, Call::Propose(name)),
    ]
}

/// Each call with these contents, on a replica that was opened just before.
fn answer_to_each(pair: &mut Pair, name: Name, contents: &[u8], expected: u16) {
    for (own, call) in calls(name) {
        open(pair, own);
        answers(pair, AnyCall::Call(call.with(contents.to_vec())), expected);
    }
}

fn name_of(contents: &[u8]) -> Name {
    block_name(GENESIS, Height(1), contents).expect("at most 4,096 bytes")
}

#[test]
fn contents_of_every_length() {
    let mut pair = Pair::new(Rooms::empty(), Faults::NONE);
    let mut random = Random::new(7);
    for length in 0..=CONTENTS {
        let mut contents = random.bytes(length);
        let name = name_of(&contents);
        answer_to_each(&mut pair, name, &contents, 0);
        match contents.last_mut() {
            Some(last) => *last ^= 1,
            None => contents.push(0),
        }
        answer_to_each(&mut pair, name, &contents, 17);
    }
    for length in (CONTENTS + 1..CONTENTS + 200).chain([2 * CONTENTS, 1 << 16, (1 << 16) + 1, (1 << 16) + CONTENTS]) {
        let contents = random.bytes(length);
        answer_to_each(&mut pair, name_of(&contents[..CONTENTS]), &contents, 16);
    }
}

#[test]
fn every_bit_of_the_name_counts() {
    let mut pair = Pair::new(Rooms::empty(), Faults::NONE);
    let name = name_of(b"contents");
    answer_to_each(&mut pair, name, b"contents", 0);
    for bit in 0..256 {
        let mut other = name;
        other[bit / 8] ^= 1 << (bit % 8);
        answer_to_each(&mut pair, other, b"contents", 17);
    }
}
