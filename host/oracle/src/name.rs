//! 02, 2.5: the name of a block, made from its contents. A call of its own that touches no replica.

use crate::sha256::sha256;
use crate::types::{Height, Name, Refusal};

/// 02, 2.5: "the contents, which have 0 to 4,096 bytes".
pub const CONTENTS: usize = 4_096;

/// 02, 2.5: "SHA-256 (FIPS 180-4) of parent name, height as u64 little-endian, and the contents". "The name call takes any
/// height and refuses by 16 only": "Contents over 4,096 bytes".
pub fn block_name(parent: Name, height: Height, contents: &[u8]) -> Result<Name, Refusal> {
    if contents.len() > CONTENTS {
        return Err(Refusal::ContentsTooLong);
    }
    Ok(sha256(&message(parent, height, contents)))
}

/// What is hashed.
fn message(parent: Name, height: Height, contents: &[u8]) -> Vec<u8> {
    [&parent[..], &height.0.to_le_bytes(), contents].concat()
}
