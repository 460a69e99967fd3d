//! A block's contents, as a call comes with them.

/// What a block holds, 0 to 4,096 bytes, as [`Replica::record_with`](crate::Replica::record_with),
/// [`Replica::propose_with`](crate::Replica::propose_with) and [`Replica::propose_contents`](crate::Replica::propose_contents)
/// come with it. No bytes are contents too, and then the name is checked; a call that comes without contents is
/// [`Replica::record`](crate::Replica::record) or [`Replica::propose`](crate::Replica::propose), and no name is.
///
/// It is a type of its own so that a record isn't taken for contents:
///
/// ```compile_fail,E0308
/// # use replica::{Contents, Replica, Settings};
/// # let mut replica = Replica::open(Settings { f: 1, c: 1, k: 0, n: 6 }, 0, &[0, 1, 2, 3, 4, 5]).unwrap();
/// let (record, contents) = (&[0u8; 80][..], &b"title 7 issued"[..]);
/// let _ = replica.record_with(contents, record);
/// ```
#[derive(Clone, Copy, Debug, PartialEq, Eq, Hash)]
pub struct Contents<'a>(pub &'a [u8]);
