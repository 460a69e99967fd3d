//! The proved replica for a Rust host: owned regions, typed answers, typed output.
//!
//! The calls are those of the library that `tools/library` builds from `crates/replica_c`; `build.rs` has it built
//! where it is missing or older than its sources. Each call is proved to do what `docs/INTERFACE.md` and the definitions
//! behind it say, on any input and any content of the regions. This crate only lends the regions and reads what comes
//! back; [`raw`] has the calls as they are. Two touch no replica: [`block_name`] makes a block's name from its contents, and
//! [`decisive_timeout`] is for those who look at a timeout certificate afterwards.
//!
//! What the proof of one chain asks of a host stands in `docs/INTERFACE.md`: all replicas of a cluster are opened with the same
//! settings and the same leader list, signatures are checked before a record comes in, the state is saved before any output
//! byte is sent, a replica resumes only from its last finished call.
//!
//! A block's name is made by the library from its [`Contents`]: [`Replica::propose_contents`] proposes them, and with
//! [`Replica::record_with`] the others check that proposals and blocks have the name that their contents give. So a host hands
//! a proposal's contents on with it, and keeps those of held blocks for whoever asks. A host that sees to its names itself uses
//! [`Replica::propose`] and [`Replica::record`].
//!
//! Four replicas of six vote for the block that the first one proposes, and commit to it:
//!
//! ```
//! use replica::{Content, Contents, Height, Receiver, Refusal, Replica, Settings};
//!
//! let settings = Settings { f: 1, c: 1, k: 0, n: 6 };
//! let leaders = settings.in_turn();
//! let mut cluster = (0..4).map(|own| Replica::open(settings, own, &leaders)).collect::<Result<Vec<_>, Refusal>>()?;
//! let mut waiting = Vec::new(); // records on their way: to whom, and the bytes
//! let mut released = Vec::new();
//!
//! let contents = Contents(b"title 7 issued"); // they travel with the records: beside a vote they do no harm
//! let (name, accepted) = cluster[0].propose_contents(contents)?;
//! let output = accepted.unsaved();
//! waiting.extend(output.records().flat_map(|record| (1..4).map(move |to| (to, record.bytes.to_vec()))));
//!
//! while let Some((to, record)) = waiting.pop() {
//!     let Ok(accepted) = cluster[to].record_with(&record, contents) else { continue };
//!     for (receiver, record) in accepted.unsaved().sendings() {
//!         match (receiver, record.content) {
//!             (Receiver::Others, _) => {
//!                 waiting.extend((0..4).filter(|&other| other != to).map(|other| (other, record.bytes.to_vec())))
//!             }
//!             (Receiver::Host, Content::Release(release)) => released.push((to, release.name, release.height)),
//!             _ => {}
//!         }
//!     }
//! }
//!
//! released.sort();
//! assert_eq!(released, [0, 1, 2, 3].map(|own| (own, name, Height(1))));
//! assert!(cluster.iter().all(|replica| replica.tip().name == name));
//! # Ok::<(), Refusal>(())
//! ```

mod contents;
mod decisive;
mod name;
mod record;
mod refusal;
mod replica;
mod types;

pub mod raw;

pub use contents::Contents;
pub use decisive::decisive_timeout;
pub use name::block_name;
pub use record::{Content, Progress, Proposal, Receiver, Record, Release, Timeout, TimeoutCertificate};
pub use refusal::Refusal;
pub use replica::{Accepted, Output, Replica};
pub use types::{Block, Certificate, Counters, Height, Name, Settings, View, Vote};

/// The example of `docs/INTERFACE.md` is run as it is printed there.
#[cfg(doctest)]
#[doc = include_str!("../../../docs/INTERFACE.md")]
struct Interface;

/// And the README's.
#[cfg(doctest)]
#[doc = include_str!("../../../README.md")]
struct Readme;
