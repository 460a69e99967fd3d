//! 02, 2.5: SHA-256 against published digests and against `sha256sum`, and the name of a block.

#[path = "common/published.rs"]
mod published;
#[path = "common/sha256sum.rs"]
mod sha256sum;

use oracle::sha256::sha256;
use oracle::{block_name, Height, Name, Refusal, CONTENTS, GENESIS};
use published::PUBLISHED;
use sha256sum::{hex, sha256sum};

// ---------------------------------------------------------------- SHA-256

#[test]
fn published_digests() {
    for published in PUBLISHED {
        let message = published.message();
        assert_eq!(hex(&sha256(&message)), published.digest, "{} bytes", message.len());
    }
}

/// A message of this length.
fn message(length: usize) -> Vec<u8> {
    (0..length).map(|at| (at * at / 7 + 31 * length + at) as u8).collect()
}

#[test]
fn every_length_as_sha256sum() {
    let messages: Vec<Vec<u8>> = (0..=4_200).map(message).collect();
    for (message, digest) in messages.iter().zip(sha256sum(&messages)) {
        assert_eq!(hex(&sha256(message)), digest, "{} bytes", message.len());
    }
}

// ---------------------------------------------------------------- names

const PARENT: Name = [0xA1; 32];

/// Put together by hand: 32 bytes of the parent's name, eight of the height, its lowest byte first, then the contents.
#[test]
fn parent_height_contents() {
    let mut message = vec![0xA1; 32];
    message.extend([0x08, 0x07, 0x06, 0x05, 0x04, 0x03, 0x02, 0x01]);
    message.extend(b"contents");
    let [digest] = sha256sum(&[message]).try_into().expect("one digest");
    let name = block_name(PARENT, Height(0x0102_0304_0506_0708), b"contents").expect("a name");
    assert_eq!(hex(&name), digest);
}

/// With genesis as parent, height 0 and no contents it is the digest of 40 zero bytes.
#[test]
fn names_of_nothing() {
    let [digest] = sha256sum(&[vec![0; 40]]).try_into().expect("one digest");
    assert_eq!(block_name(GENESIS, Height(0), b"").map(|name| hex(&name)), Ok(digest));
}

/// "Contents over 4,096 bytes are refused by 16".
#[test]
fn longer_contents_are_refused() {
    assert_eq!(CONTENTS, 4_096);
    for length in [0, 1, 4_095, 4_096] {
        assert!(block_name(PARENT, Height(1), &message(length)).is_ok(), "{length} bytes");
    }
    for length in [4_097, 4_098, 4_136, 8_192, 1 << 20] {
        let answer = block_name(PARENT, Height(1), &message(length));
        assert_eq!(answer.map_err(Refusal::number), Err(16), "{length} bytes");
    }
}

/// "takes any height": also those over 2^62, which no block has.
#[test]
fn any_height_has_a_name_of_its_own() {
    let heights = [0, 1, 255, 256, 1 << 32, 1 << 62, (1 << 62) + 1, u64::MAX].map(Height);
    let mut names = heights.map(|height| block_name(PARENT, height, b"").expect("a name")).to_vec();
    names.sort_unstable();
    names.dedup();
    assert_eq!(names.len(), heights.len());
}
