//! Calls that only read.

use std::hint::black_box;

/// Bytes on either side of what is lent, which so begins at an odd address.
const GUARD: [u8; 61] = [0xC3; 61];

/// What a call on these bytes answers, and whether it changed them or those beside them.
pub(crate) fn guarded<T>(bytes: &[u8], call: impl FnOnce(&[u8]) -> T) -> (T, bool) {
    let before = [&GUARD, bytes, &GUARD].concat();
    let lent = before.clone();
    let answer = call(&lent[GUARD.len()..lent.len() - GUARD.len()]);
    let changed = black_box(lent) != before; // else what is lent for reading counts as unchanged
    (answer, changed)
}
