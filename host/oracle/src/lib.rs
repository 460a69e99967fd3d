//! One replica of the voting core, written from the scope paper (01) and its change requests (02) alone: state as Rust
//! values, calls that accept or refuse. Their words in ours: box = replica, ring = cluster, liar = Byzantine replica,
//! threshold = quorum.

mod certificate;
mod decisive;
mod faults;
mod judge;
mod kept;
mod leaders;
mod misreading;
mod name;
mod replica;
mod rules;
mod settings;
mod store;
mod types;

pub mod help;
pub mod lent;
pub mod literal;
pub mod regions;
pub mod run;
pub mod sha256;
pub mod wire;

pub use certificate::{Certificate, CertificateKind, Timeout};
pub use decisive::decisive;
pub use faults::Faults;
pub use kept::{members, BallotRows, Ballots, EntryCertificate, KeptTimeouts, TimeoutRows, Window};
pub use leaders::Leaders;
pub use misreading::Misreading;
pub use name::{block_name, CONTENTS};
pub use replica::{Counters, Memory, Replica};
pub use settings::{Protocol, Quorums, Settings};
pub use store::{Path, Place, Store};
pub use types::{answer, Block, Height, Name, Refusal, Reply, View, Vote, GENESIS};
pub use wire::RawTimeout;
