//! Seeded inputs for one replica. A stream looks at the replica's state, so that many calls are accepted and every
//! refusal, rule and limit comes up. Two more kinds of streams are for the calls that touch no replica.

mod call;
mod case;
mod contents;
mod coverage;
mod decisive;
mod garbage;
mod good;
mod input;
mod leaders;
mod lent;
mod name;
mod opening;
mod random;
mod spoil;
mod stream;

pub use call::Call;
pub use case::ContentsCase;
pub use coverage::{reachable, Coverage, Kind, Path, Row, UNREACHABLE};
pub use decisive::{Decided, DecisiveAnswer, DecisiveCall, DecisiveCoverage, DecisiveStream, Outcome};
pub use garbage::garbage;
pub use good::of_any_count;
pub use input::{input, play, play_stream, Played};
pub use lent::{garbage_rooms, lent_input, scatter, LentCoverage};
pub use name::{NameAnswer, NameCall, NameStream};
pub use opening::Opening;
pub use random::Random;
pub use stream::Stream;
