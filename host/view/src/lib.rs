//! A recorded run as a timeline that people can read: as text, as a picture in SVG, as a page. The replicas under it
//! are anything that is a `Shown`: the proved library and the oracle are.

mod captions;
mod choice;
mod lanes;
mod layout;
mod marks;
mod meaning;
mod page;
mod panel;
mod picture;
mod play;
mod recording;
mod releases;
mod shown;
mod summary;
mod svg;
mod text;
mod tracks;
mod unsent;

pub use choice::{Choice, DecidedBy};
pub use meaning::{answer_words, meaning};
pub use page::page;
pub use panel::{verdict, Panel};
pub use picture::picture;
pub use play::{join, play, Event, Lane, Opened, Played, State};
pub use recording::{Entry, Error, Recording, Step, MAGIC};
pub use shown::{Decisive, Shown};
pub use summary::Summary;
pub use text::{call_words, written_words, Timeline};
