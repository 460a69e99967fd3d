//! Inputs of the call that names a block: a parent, a height and contents of every length.

use oracle::{block_name, Height, Name, Refusal, GENESIS};

use crate::random::Random;

/// The longest contents, over what is taken.
const LONGEST: usize = 4_200;

/// A parent, a height and contents.
#[derive(Clone, Debug, PartialEq, Eq)]
pub struct NameCall {
    pub parent: Name,
    pub height: Height,
    pub contents: Vec<u8>,
}

/// What the call answers: the name or a refusal.
pub type NameAnswer = Result<Name, Refusal>;

impl NameCall {
    /// Makes the call.
    pub fn make(&self) -> NameAnswer {
        block_name(self.parent, self.height, &self.contents)
    }
}

/// A seeded generator of such calls, one for each length of contents from 0 to 4,200, in this order.
pub struct NameStream {
    random: Random,
    length: usize,
}

impl NameStream {
    /// How many calls it has.
    pub const CALLS: u64 = LONGEST as u64 + 1;

    pub fn new(seed: u64) -> NameStream {
        NameStream { random: Random::new(seed ^ 0x6E61_6D65), length: 0 }
    }

    /// Any, at times genesis.
    fn parent(&mut self) -> Name {
        if self.random.chance(5) {
            return GENESIS;
        }
        self.random.bytes(GENESIS.len()).try_into().expect("as many bytes as a name has")
    }

    /// Any, those that no block has among them.
    fn height(&mut self) -> Height {
        let any = self.random.number();
        Height(self.random.pick(&[0, 1, 1 << 32, 1 << 62, (1 << 62) + 1, u64::MAX, any, any, any % 1_000]))
    }

    /// Any bytes, at times all alike.
    fn contents(&mut self) -> Vec<u8> {
        if self.random.chance(10) {
            return vec![self.random.pick(&[0, 1, 0x80, 0xFF]); self.length];
        }
        self.random.bytes(self.length)
    }
}

/// It ends after the longest.
impl Iterator for NameStream {
    type Item = NameCall;

    fn next(&mut self) -> Option<NameCall> {
        if self.length > LONGEST {
            return None;
        }
        let call = NameCall { parent: self.parent(), height: self.height(), contents: self.contents() };
        self.length += 1;
        Some(call)
    }
}
