//! The proved library beside the oracle, call by call: the same regions, the same calls, and after each call every byte
//! compared, in what was lent and around it. The calls that name the decisive timeout and a block only read: their answers
//! are compared.

mod decisive;
mod difference;
mod expected;
mod guarded;
mod library;
mod name;
mod pair;
mod run;
mod shrink;
mod step;
mod tally;

pub use decisive::{compare_decisive, replay_decisive, DecisiveMismatch};
pub use difference::Difference;
pub use expected::Expected;
pub use library::Library;
pub use name::{compare_names, replay_name, NameCoverage, NameMismatch};
pub use pair::Pair;
pub use run::{compare_part, compare_run, Kind, Mismatch, Run};
pub use shrink::{replay, shortest};
pub use step::{AnyCall, Step};
pub use tally::Tally;
