//! Views, heights, names, votes and blocks.

/// 01: "A name is 32 bytes, and names are compared byte by byte."
pub type Name = [u8; 32];

/// 01: "The all-zero name is genesis, height 0."
pub const GENESIS: Name = [0; 32];

/// A view number. 01: "Views and heights stay at or below 2^62."
#[derive(Clone, Copy, Debug, Default, PartialEq, Eq, PartialOrd, Ord, Hash)]
pub struct View(pub u64);

impl View {
    pub const MAX: View = View(1 << 62);
}

/// A block's height. 01: "A view number and a height are never compared or added together."
#[derive(Clone, Copy, Debug, Default, PartialEq, Eq, PartialOrd, Ord, Hash)]
pub struct Height(pub u64);

impl Height {
    pub const MAX: Height = Height(1 << 62);

    /// The height of a child, none where it would be over 2^62.
    pub fn child(self) -> Option<Height> {
        (self < Height::MAX).then(|| Height(self.0 + 1))
    }
}

/// A vote or a commit: a view and a name. 01: "No high vote: view 0, zero name."
#[derive(Clone, Copy, Debug, PartialEq, Eq, PartialOrd, Ord, Hash)]
pub struct Vote {
    pub view: View,
    pub name: Name,
}

impl Vote {
    pub const NONE: Vote = Vote { view: View(0), name: GENESIS };
}

/// A block without its contents.
#[derive(Clone, Copy, Debug, PartialEq, Eq, Hash)]
pub struct Block {
    pub name: Name,
    pub parent: Name,
    pub height: Height,
}

impl Block {
    pub const GENESIS: Block = Block { name: GENESIS, parent: GENESIS, height: Height(0) };
}

/// Refusal numbers: 1 to 15 are 01's, by place, in the order in which they are judged; 16 and 17 are 02's, whose places aren't
/// those of their numbers.
#[derive(Clone, Copy, Debug, PartialEq, Eq, PartialOrd, Ord, Hash)]
#[repr(u16)]
pub enum Refusal {
    /// opening: settings break a rule, own number ≥ n, or no leader list
    Settings = 1,
    /// regions: state that breaks a listed rule
    Regions = 2,
    /// shape: a length is wrong
    Length = 3,
    /// shape: a kind is out of place
    Kind = 4,
    /// shape: padding, zero names, signers, inner records
    Content = 5,
    /// party: sender outside the cluster, oneself, or not the leader
    Party = 6,
    /// view: below the window or the current view
    ViewBelow = 7,
    /// view: above the window or the limit
    ViewAbove = 8,
    /// certificate: not good
    Certificate = 9,
    /// before: the same one was taken already
    Repeated = 10,
    /// before: another one was taken in its place
    Conflicting = 11,
    /// chain: parent or safe block not held
    ParentMissing = 12,
    /// chain: wrong parent or height
    ParentWrong = 13,
    /// chain: block new and store full
    StoreFull = 14,
    /// turn: propose out of turn
    Turn = 15,
    /// contents: over 4,096 bytes
    ContentsTooLong = 16,
    /// contents: the name isn't the digest of parent, height and contents
    NameWrong = 17,
}

impl Refusal {
    pub fn number(self) -> u16 {
        self as u16
    }
}

/// What a call answers: acceptance with the number of bytes written, or a refusal.
pub type Reply = Result<usize, Refusal>;

/// 01's answer: "0 is acceptance", otherwise the refusal's number.
pub fn answer(reply: Reply) -> u16 {
    reply.err().map_or(0, Refusal::number)
}
