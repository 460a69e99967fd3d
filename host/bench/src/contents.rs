//! Blocks and proposals that come with their contents, beside the plain calls: the library against itself.

use std::hint::black_box;
use std::time::Instant;

use oracle::{wire, Block, Certificate, Height, Leaders, Name, Settings, View, GENESIS};
use replica::raw;
use streams::{Opening, Random};

use crate::measure::medians_of;
use crate::sides::{Library, Side};
use crate::table::{Row, Table};

/// Bytes of contents that are measured.
pub const LENGTHS: [usize; 3] = [0, 256, raw::CONTENTS];

/// Blocks of a chain; a store has room for 128.
const CHAIN: u64 = 100;

/// What brings a block.
#[derive(Clone, Copy, Debug, PartialEq, Eq)]
pub enum Kind {
    Block,
    Proposal,
    Propose,
}

impl Kind {
    pub const ALL: [Kind; 3] = [Kind::Block, Kind::Proposal, Kind::Propose];

    /// The replica that is measured leads every view, or none.
    fn opening(self) -> Opening {
        let own = if self == Kind::Propose { 0 } else { 5 };
        let settings = Settings::new(1, 1, 0).expect("good settings");
        let leaders = Leaders::new(&[0], settings).expect("a list that is taken");
        Opening { leaders, ..Opening::new(1, 1, 0, own).expect("good settings") }
    }
}

/// Whether the call comes with contents.
#[derive(Clone, Copy, Debug, PartialEq, Eq)]
pub enum Way {
    With,
    Plain,
}

impl Way {
    pub const ALL: [Way; 2] = [Way::With, Way::Plain];
}

/// A call that is accepted, with contents and without.
pub struct Call {
    with: streams::Call,
    plain: streams::Call,
    /// Its kind is asked for; the others only lead there.
    pub is_timed: bool,
}

impl Call {
    fn new(plain: streams::Call, contents: Vec<u8>, is_timed: bool) -> Call {
        Call { with: plain.clone().with(contents), plain, is_timed }
    }

    /// Whether it is accepted.
    pub fn make(&self, library: &mut Library, way: Way) -> bool {
        library.make(match way {
            Way::With => &self.with,
            Way::Plain => &self.plain,
        })
    }
}

/// A chain of blocks with contents of one length, each brought by a call of one kind.
pub struct Chain {
    kind: Kind,
    length: usize,
    calls: Vec<Call>,
}

impl Chain {
    pub fn new(kind: Kind, length: usize, seed: u64) -> Chain {
        let mut random = Random::new(seed);
        let mut chain = Chain { kind, length, calls: Vec::new() };
        let mut top = Block::GENESIS;
        for height in 1..=CHAIN {
            let contents = random.bytes(length);
            top = child(&top, &contents);
            chain.bring(&top, View(height), contents);
        }
        chain
    }

    /// The calls by which a block is brought; a proposal has its view by its height.
    fn bring(&mut self, block: &Block, view: View, contents: Vec<u8>) {
        let mut record = Vec::new();
        let plain = match self.kind {
            Kind::Block => {
                wire::write_block(&mut record, 0, block);
                streams::Call::Record(record)
            }
            Kind::Proposal => {
                wire::write_proposal(&mut record, 0, view, block, &certificate(block.parent, View(view.0 - 1)));
                streams::Call::Record(record)
            }
            Kind::Propose => {
                if view > View(1) {
                    let entry = streams::Call::Record(certificate(block.parent, View(view.0 - 1)));
                    self.calls.push(Call::new(entry, Vec::new(), false));
                }
                streams::Call::Propose(block.name)
            }
        };
        self.calls.push(Call::new(plain, contents, true));
    }

    /// Plays it on an opened replica; every call is accepted.
    pub fn play(&self, mut make: impl FnMut(&mut Library, &Call) -> bool) {
        let mut library = Library::new(self.kind.opening());
        for call in &self.calls {
            assert!(make(&mut library, call), "it fits the state");
        }
    }

    fn time(&self, library: &mut Library, way: Way) -> Vec<u32> {
        library.open(self.kind.opening());
        let mut times = Vec::new();
        for call in &self.calls {
            let start = Instant::now();
            black_box(call.make(library, way));
            let time = start.elapsed().as_nanos() as u32;
            if call.is_timed {
                times.push(time);
            }
        }
        times
    }
}

fn child(parent: &Block, contents: &[u8]) -> Block {
    let height = parent.height.0 + 1;
    let named = raw::name(replica::Name { bytes: parent.name }, height, contents);
    Block { name: named.name.bytes, parent: parent.name, height: Height(height) }
}

/// A block certificate of replica 0; of view 0 the genesis one.
fn certificate(name: Name, view: View) -> Vec<u8> {
    let certificate = match name {
        GENESIS => Certificate::GENESIS,
        _ => Certificate::block(view, name, 0b1111),
    };
    let mut record = Vec::new();
    wire::write_block_certificate(&mut record, 0, &certificate);
    record
}

pub fn measure(rounds: usize) -> Table {
    let kinds = Kind::ALL.into_iter();
    let cases: Vec<Chain> = kinds.flat_map(|kind| LENGTHS.map(|length| Chain::new(kind, length, 1))).collect();
    let mut library = Library::new(Kind::Block.opening());
    let times = medians_of(&cases, rounds, |chain| Way::ALL.map(|way| chain.time(&mut library, way)));
    let mean = |times: Vec<f64>| times.iter().sum::<f64>() / times.len() as f64;
    let labels = |chain: &Chain| vec![format!("{:?}", chain.kind), chain.length.to_string()];
    let rows = cases.iter().zip(times).map(|(chain, sides)| Row { labels: labels(chain), times: sides.map(mean) });
    let title = "a block that comes with its contents, by their bytes: an accepted call".to_string();
    Table { name: "contents", title, columns: &["call", "contents"], against: "plain", rows: rows.collect() }
}
