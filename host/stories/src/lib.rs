//! Runs that are kept in `runs/`: inputs of the run program with the lines that it must print, and the story of two
//! blocks for one container, whole and as each honest replica lives it. All bytes follow from this code alone.

mod alone;
mod damaged;
mod folder;
mod make;
mod one_call;
mod readme;
mod refusals;
mod releases;
mod split;
mod story;
mod ten;

use make::Numbers;

pub use folder::{files, File};
pub use readme::readme;
pub use story::{beside, play, recording, Ranking};

/// A call of a stored run, with what it is there for.
pub struct Told {
    pub record: Vec<u8>,
    /// The answer as 01 has it, said without running anything.
    pub answer: u16,
    pub about: &'static str,
}

fn call(answer: u16, about: &'static str, record: Vec<u8>) -> Told {
    Told { record, answer, about }
}

/// The same for the next calls, one for each record.
fn calls<const N: usize>(answer: u16, about: &'static str, records: [Vec<u8>; N]) -> Vec<Told> {
    records.map(|record| call(answer, about, record)).into()
}

/// A run of one replica.
pub struct StoredRun {
    pub name: &'static str,
    pub about: &'static str,
    /// What the run program reads.
    pub input: Vec<u8>,
    /// The calls in the input one by one, where each has its own comment.
    pub told: Vec<Told>,
}

impl StoredRun {
    fn plain(name: &'static str, about: &'static str, input: Vec<u8>) -> StoredRun {
        StoredRun { name, about, input, told: Vec::new() }
    }

    fn told(name: &'static str, about: &'static str, numbers: Numbers, own: u16, told: Vec<Told>) -> StoredRun {
        let mut input = make::opening(numbers, own);
        told.iter().for_each(|call| input.extend_from_slice(&call.record));
        StoredRun { name, about, input, told }
    }

    /// What 01's run program prints for it, by the oracle.
    pub fn listing(&self) -> String {
        let mut lines = Vec::new();
        oracle::run::run(&self.input, oracle::run::Options::default(), &mut lines).expect("a vector takes all lines");
        String::from_utf8(lines).expect("lines are text")
    }
}

/// All runs of one replica.
pub fn runs() -> Vec<StoredRun> {
    let mut runs = vec![releases::listing(), releases::fast(), releases::slow(), story::next_leader()];
    runs.extend(story::inputs());
    runs.extend([split::run(), damaged::run(), refusals::run(), refusals::bad_settings(), refusals::too_many()]);
    runs.extend([ten::fast(), ten::slow(), alone::run(), one_call::one_vote(), one_call::one_timeout()]);
    runs
}
