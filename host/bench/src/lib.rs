//! Time of a call, the proved library beside the oracle, or beside C for names, or with contents beside the plain call, on the
//! same calls in one run.
//! `docs/PERFORMANCE.md` has the figures.
//!
//! Calls are made up before the clock starts; each side keeps its state and one output buffer that it writes every
//! call's output to, and that isn't cleared. A round plays all calls, each script on one side and at once on the
//! other; the first round warms up and isn't counted. A figure is a mean over calls of each call's median over the rounds.

pub mod contents;
pub mod decisive;
pub mod held;
pub mod kinds;
pub mod life;
pub mod markdown;
pub mod measure;
pub mod names;
pub mod plot;
pub mod releases;
pub mod sides;
pub mod size;
pub mod table;
pub mod timeouts;
