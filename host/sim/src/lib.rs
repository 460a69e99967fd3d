//! A deterministic simulated cluster over any replica that is a `Core`: a network that loses, doubles, delays and
//! reorders, hosts that stop and resume, and up to f Byzantine replicas. After each call the claim of demand 3 is
//! checked: the honest replicas' releases are one chain.

mod adversary;
mod chain;
mod cluster;
mod core;
mod coverage;
mod leaders;
mod ledger;
mod naming;
mod network;
mod plan;
mod random;
mod rounds;
pub mod scenarios;
mod script;
pub mod settings;
pub mod timeouts;
pub mod words;

pub use crate::core::{Core, Proved};
pub use chain::{Rows, Violation};
pub use cluster::{Cluster, Outcome, RefusedOpening};
pub use coverage::{Call, Coverage, Row, SafeKind};
pub use ledger::{Backing, Ledger, Made};
pub use naming::Naming;
pub use network::Run;
pub use plan::{Failure, Names, Plan, Style};
pub use random::Random;
pub use rounds::Rounds;
pub use script::Script;
pub use settings::Family;
