//! The name of a block, beside the same in C.

use std::hint::black_box;

use replica::{raw, Name};
use streams::Random;

use crate::measure::measure_calls;
use crate::table::{Row, Table};

/// Bytes of contents that are measured, up to the most that the call takes.
pub const LENGTHS: [usize; 4] = [0, 64, 1024, raw::CONTENTS];

/// Blocks of each length.
const SEEDS: u64 = 10;

/// What `sha256sum` says of 32 bytes `p`, the height 7 in eight bytes, and 4,096 bytes `c`.
const KNOWN: &str = "bffd52ca1437a09557169331b1c4cf7aa35609a68ae6f245bd5431610975a794";

// `c/sha256.c`
extern "C" {
    fn c_name(parent: *const u8, height: u64, contents: *const u8, length: usize, name: *mut u8);
}

/// A block, and its name.
pub struct Question {
    parent: Name,
    height: u64,
    contents: Vec<u8>,
    name: Name,
}

impl Question {
    /// Its name is what both sides say.
    fn new(parent: Name, height: u64, contents: Vec<u8>) -> Question {
        let mut question = Question { parent, height, contents, name: Name::default() };
        question.name = question.name_by_c();
        assert!(question.ask_library(), "library and C differ at {} bytes of contents", question.contents.len());
        question
    }

    /// Any block with contents of this length.
    pub fn any(length: usize, seed: u64) -> Question {
        let mut random = Random::new(seed);
        let height = random.number();
        let mut byte = || random.number() as u8;
        let parent = Name { bytes: std::array::from_fn(|_| byte()) };
        Question::new(parent, height, (0..length).map(|_| byte()).collect())
    }

    /// Whether the library names the block so.
    pub fn ask_library(&self) -> bool {
        let answer = raw::name(self.parent, self.height, black_box(&self.contents));
        (answer.refusal, answer.name) == (0, self.name)
    }

    /// Whether the C does.
    fn ask_c(&self) -> bool {
        self.name_by_c() == self.name
    }

    fn name_by_c(&self) -> Name {
        let mut name = Name::default();
        let (parent, contents) = (self.parent.bytes.as_ptr(), black_box(&self.contents));
        // SAFETY: the contents' pointer is valid for their length, the others for 32 bytes; all else is left alone.
        unsafe { c_name(parent, self.height, contents.as_ptr(), contents.len(), name.bytes.as_mut_ptr()) };
        name
    }
}

pub fn measure(rounds: usize) -> Table {
    assert_known();
    let questions = LENGTHS.map(|length| (0..SEEDS).map(|seed| Question::any(length, seed)).collect::<Vec<_>>());
    let times = measure_calls(&questions, [Question::ask_library, Question::ask_c], rounds);
    let rows = LENGTHS.iter().zip(times).map(|(length, times)| Row { labels: vec![length.to_string()], times });
    let title = "the name of a block, by bytes of its contents".to_string();
    Table { name: "names", title, columns: &["contents"], against: "C -O3", rows: rows.collect() }
}

/// Both sides give the known name.
fn assert_known() {
    let question = Question::new(Name { bytes: [b'p'; 32] }, 7, vec![b'c'; raw::CONTENTS]);
    let digits = question.name.bytes.map(|byte| format!("{byte:02x}"));
    assert_eq!(digits.concat(), KNOWN);
}
