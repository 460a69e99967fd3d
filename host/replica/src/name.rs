//! The name of a block, made from its contents.

use crate::raw;
use crate::refusal::Refusal;
use crate::types::{Height, Name};

/// The name of a block: SHA-256 (FIPS 180-4) of its parent's name, its height as eight bytes, the lowest first, and its
/// contents, 0 to 4,096 bytes. Any height is taken; longer contents are refused by [`Refusal::ContentsTooLong`], and nothing
/// else is.
///
/// No replica is touched. [`Replica::record_with`](crate::Replica::record_with) and
/// [`Replica::propose_with`](crate::Replica::propose_with) check that a block has this name, and
/// [`Replica::propose_contents`](crate::Replica::propose_contents) makes it itself. A host whose blocks all have it keeps its duty
/// that a name has one parent and one height, as long as no two blocks have one digest.
///
/// The name expected here was computed by another program:
/// `(head -c 32 /dev/zero; printf '\1\0\0\0\0\0\0\0title 7 issued') | sha256sum`.
///
/// ```
/// use replica::{block_name, Height, Name, Refusal};
///
/// let first = block_name(Name::GENESIS, Height(1), b"title 7 issued")?;
/// let hex: String = first.bytes.iter().map(|byte| format!("{byte:02x}")).collect();
/// assert_eq!(hex, "ea35492a21e062384d20422391a16ea9abfea98b6ab06fbefdaae25c62f0dbd0");
///
/// let second = block_name(first, Height(2), &[7; 4_096])?; // on the first one
/// assert_ne!(second, block_name(Name::GENESIS, Height(2), &[7; 4_096])?);
/// assert_eq!(block_name(second, Height(3), &[7; 4_097]), Err(Refusal::ContentsTooLong));
/// # Ok::<(), Refusal>(())
/// ```
pub fn block_name(parent: Name, height: Height, contents: &[u8]) -> Result<Name, Refusal> {
    let raw::Named { refusal, name } = raw::name(parent, height.0, contents);
    Refusal::judge(refusal)?;
    Ok(name)
}
