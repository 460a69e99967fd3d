//! The call that names a block, on library and oracle, and against `sha256sum`. Other seeds with `COMPARE_SEED=S`, more
//! calls with `COMPARE_NAMES=N`.

#[path = "../../oracle/tests/common/published.rs"]
mod published;
#[path = "../../oracle/tests/common/sha256sum.rs"]
mod sha256sum;

use std::collections::BTreeSet;

use compare::{compare_names, replay_name};
use oracle::sha256::{hash, padded, sha256};
use oracle::{Height, Refusal, CONTENTS};
use published::PUBLISHED;
use replica::{block_name, raw, Name};
use sha256sum::{hex, sha256sum};
use streams::{NameAnswer, NameCall, NameStream};

fn number(variable: &str, otherwise: u64) -> u64 {
    std::env::var(variable).map_or(otherwise, |text| text.parse().expect("a number"))
}

fn seed() -> u64 {
    number("COMPARE_SEED", 1)
}

/// Each length of contents, in all streams; no answer is given but 0 and 16.
#[test]
fn library_and_oracle_give_the_same_name() {
    let calls = number("COMPARE_NAMES", 5 * NameStream::CALLS);
    let coverage = compare_names(seed(), calls, NameCall::make).unwrap_or_else(|mismatch| panic!("{mismatch}"));
    println!("{coverage}");
    assert!(coverage.calls() >= calls);
    assert_eq!(coverage.answers(), [0, 16]);
}

/// What a stream has.
#[test]
fn every_length_and_any_height_come_up() {
    let calls: Vec<NameCall> = NameStream::new(seed()).collect();
    assert!(calls.iter().map(|call| call.contents.len()).eq(0..=4_200));
    let heights: BTreeSet<u64> = calls.iter().map(|call| call.height.0).collect();
    assert!([0, 1, 1 << 32, 1 << 62, u64::MAX].iter().all(|height| heights.contains(height)));
    assert!(heights.len() > 1_000);
    assert_eq!(raw::CONTENTS, CONTENTS);
}

/// What is hashed: parent, height, contents.
fn message(call: &NameCall) -> Vec<u8> {
    [&call.parent[..], &call.height.0.to_le_bytes(), &call.contents].concat()
}

/// The library's name.
fn library_name(call: &NameCall) -> Result<String, replica::Refusal> {
    let parent = Name { bytes: call.parent };
    block_name(parent, replica::Height(call.height.0), &call.contents).map(|name| hex(&name.bytes))
}

/// The library's names of contents of all lengths that are taken.
#[test]
fn library_names_are_those_of_sha256sum() {
    let calls: Vec<NameCall> = NameStream::new(seed()).take(CONTENTS + 1).collect();
    let messages: Vec<Vec<u8>> = calls.iter().map(message).collect();
    for (call, digest) in calls.iter().zip(sha256sum(&messages)) {
        assert_eq!(library_name(call), Ok(digest), "{call:?}");
    }
}

/// Read as parent, height and contents.
fn as_call(message: &[u8]) -> Option<NameCall> {
    let (parent, rest) = message.split_first_chunk()?;
    let (height, contents) = rest.split_first_chunk()?;
    let height = Height(u64::from_le_bytes(*height));
    Some(NameCall { parent: *parent, height, contents: contents.to_vec() })
}

/// A published message of 40 bytes and more has a parent, a height and contents, and its digest is that block's name. Those of
/// a million bytes are too long.
#[test]
fn published_digests_are_names() {
    let mut named = 0;
    for published in PUBLISHED {
        let Some(call) = as_call(&published.message()) else { continue };
        if call.contents.len() <= CONTENTS {
            assert_eq!(library_name(&call).as_deref(), Ok(published.digest));
            named += 1;
        }
    }
    assert_eq!(named, 9);
}

// ---------------------------------------------------------------- wrong answers

/// What a reading of 02 answers.
type Reading = fn(&NameCall) -> NameAnswer;

/// The same refusals, and as name the digest of other parts.
fn of_parts(call: &NameCall, parts: &[&[u8]]) -> NameAnswer {
    call.make().map(|_| sha256(&parts.concat()))
}

/// The same refusals, and as name the hash of other blocks.
fn of_blocks(call: &NameCall, change: impl FnOnce(&mut Vec<u8>)) -> NameAnswer {
    let mut blocks = padded(&message(call));
    change(&mut blocks);
    call.make().map(|_| hash(&blocks))
}

/// Another length field at the padding's end.
fn with_length(call: &NameCall, length: [u8; 8]) -> NameAnswer {
    of_blocks(call, |blocks| {
        let at = blocks.len() - length.len();
        blocks[at..].copy_from_slice(&length);
    })
}

/// Contents up to another length are taken.
fn up_to(call: &NameCall, longest: usize) -> NameAnswer {
    if call.contents.len() > longest {
        return Err(Refusal::ContentsTooLong);
    }
    Ok(sha256(&message(call)))
}

fn bits(bytes: &[u8]) -> u64 {
    8 * bytes.len() as u64
}

/// Wrong ones: what is hashed, how it is padded, what is refused.
const WRONG: [(&str, Reading); 20] = [
    ("big-endian height", |call| of_parts(call, &[&call.parent, &call.height.0.to_be_bytes(), &call.contents])),
    ("height of four bytes", |call| {
        of_parts(call, &[&call.parent, &(call.height.0 as u32).to_le_bytes(), &call.contents])
    }),
    ("height left out", |call| of_parts(call, &[&call.parent, &call.contents])),
    ("parent left out", |call| of_parts(call, &[&call.height.0.to_le_bytes(), &call.contents])),
    ("contents left out", |call| of_parts(call, &[&call.parent, &call.height.0.to_le_bytes()])),
    ("parent behind the height", |call| of_parts(call, &[&call.height.0.to_le_bytes(), &call.parent, &call.contents])),
    ("contents in front", |call| of_parts(call, &[&call.contents, &call.parent, &call.height.0.to_le_bytes()])),
    ("contents filled up with zeros", |call| {
        of_parts(call, &[&message(call), &vec![0; CONTENTS - call.contents.len().min(CONTENTS)]])
    }),
    ("the digest of the digest", |call| call.make().map(|name| sha256(&name))),
    ("little-endian words", |call| {
        call.make().map(|mut name| {
            name.chunks_exact_mut(4).for_each(<[u8]>::reverse);
            name
        })
    }),
    ("length without the 40 bytes in front", |call| with_length(call, bits(&call.contents).to_be_bytes())),
    ("length in bytes", |call| with_length(call, (message(call).len() as u64).to_be_bytes())),
    ("little-endian length", |call| with_length(call, bits(&message(call)).to_le_bytes())),
    ("length of one byte", |call| with_length(call, u64::from(bits(&message(call)) as u8).to_be_bytes())),
    ("a block more where the padding fits exactly", |call| {
        of_blocks(call, |blocks| {
            let end = blocks.len() - 8;
            if message(call).len() + 9 == blocks.len() {
                blocks.splice(end..end, [0; 64]);
            }
        })
    }),
    ("4,095 bytes at most", |call| up_to(call, 4_095)),
    ("4,097 bytes at most", |call| up_to(call, 4_097)),
    ("4,096 bytes with parent and height", |call| up_to(call, 4_056)),
    ("refused by 3", |call| call.make().map_err(|_| Refusal::Length)),
    ("no height over 2^62", |call| match call.height {
        height if height > Height::MAX => Err(Refusal::ParentWrong),
        _ => call.make(),
    }),
];

/// Each is noticed, and what is printed replays it.
#[test]
fn wrong_names_are_noticed() {
    for (what, wrong) in WRONG {
        let mismatch = compare_names(1, NameStream::CALLS, wrong).expect_err(what);
        let printed = mismatch.to_string();
        let again = replay_name(&printed, wrong).expect("a line that replays").expect("the difference again");
        assert_eq!(again.to_string(), printed, "{what}");
        assert_eq!(replay_name(&printed, NameCall::make), Ok(None), "{what}");
    }
    let zeros = "0".repeat(64);
    for line in ["", "name", "name 00 1", &format!("name {zeros} x"), &format!("name {zeros} 1 0"), "opened 1"] {
        assert!(replay_name(line, NameCall::make).is_err(), "{line}");
    }
    assert_eq!(replay_name(&format!("name {zeros} 1"), NameCall::make), Ok(None));
}
