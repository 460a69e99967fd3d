//! The values that cross the library's boundary. All of them are numbers and bytes without gaps: any bits are a value.

/// The settings of a cluster of n = 3f + 2c + k + 1 replicas, at most 32: it bears f Byzantine and c stopped ones, and k
/// more replicas make releases by votes alone likelier. Each of f, c and k may be 0, all of them in a cluster of one. Opening
/// tests them.
#[derive(Clone, Copy, Debug, PartialEq, Eq, Hash)]
pub struct Settings {
    pub f: u64,
    pub c: u64,
    pub k: u64,
    pub n: u64,
}

impl Settings {
    /// The leader list 0 to n−1, by which every replica leads in its turn.
    ///
    /// ```
    /// use replica::{Replica, Settings};
    ///
    /// let settings = Settings { f: 1, c: 1, k: 0, n: 6 };
    /// assert_eq!(settings.in_turn(), [0, 1, 2, 3, 4, 5]);
    /// assert!(Replica::open(settings, 0, &settings.in_turn()).is_ok());
    /// ```
    pub fn in_turn(self) -> Vec<u8> {
        (0..=u8::MAX).take_while(|&number| u64::from(number) < self.n).collect()
    }
}

/// A view number.
#[derive(Clone, Copy, Debug, Default, PartialEq, Eq, PartialOrd, Ord, Hash)]
#[repr(transparent)]
pub struct View(pub u64);

/// A block's height. A view and a height are never compared or added together.
#[derive(Clone, Copy, Debug, Default, PartialEq, Eq, PartialOrd, Ord, Hash)]
#[repr(transparent)]
pub struct Height(pub u64);

/// A block's name, 32 bytes. The all-zero name is genesis.
#[derive(Clone, Copy, Debug, Default, PartialEq, Eq, PartialOrd, Ord, Hash)]
#[repr(C)]
pub struct Name {
    pub bytes: [u8; 32],
}

impl Name {
    pub const GENESIS: Name = Name { bytes: [0; 32] };
}

/// A view and a name: a vote or a commit.
#[derive(Clone, Copy, Debug, Default, PartialEq, Eq, Hash)]
#[repr(C)]
pub struct Vote {
    pub view: View,
    pub name: Name,
}

/// What a block certificate or a weak certificate says. Bit i of `signers` stands for replica i.
#[derive(Clone, Copy, Debug, Default, PartialEq, Eq, Hash)]
#[repr(C)]
pub struct Certificate {
    pub view: View,
    pub name: Name,
    pub signers: u64,
}

/// A block without its contents.
#[derive(Clone, Copy, Debug, Default, PartialEq, Eq, Hash)]
#[repr(C)]
pub struct Block {
    pub name: Name,
    pub parent: Name,
    pub height: Height,
}

/// The replica's counters, one record that every call updates. A high vote or best weak certificate of view 0 is none.
#[derive(Clone, Copy, Debug, Default, PartialEq, Eq, Hash)]
#[repr(C)]
pub struct Counters {
    pub view: View,
    /// The highest view that a timeout was sent for.
    pub timed: View,
    /// The last vote sent.
    pub high_vote: Vote,
    /// The highest block certificate adopted.
    pub lock: Certificate,
    /// The highest weak certificate adopted.
    pub best_weak: Certificate,
    /// The last block released.
    pub tip: Block,
}
