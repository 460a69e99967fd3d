//! Why a call is refused.

use std::error::Error;
use std::fmt;

/// The refusals. 1 to 15 are 01's, by place, in the order in which they are judged. 16 and 17 are 02's, for what comes with
/// contents: 16 is judged right after 2, 17 right before 10 (propose: before 14). A refused call changes nothing.
#[derive(Clone, Copy, Debug, PartialEq, Eq, PartialOrd, Ord, Hash)]
#[repr(u64)]
pub enum Refusal {
    Settings = 1,
    Regions = 2,
    Length = 3,
    Kind = 4,
    Content = 5,
    Party = 6,
    ViewBelow = 7,
    ViewAbove = 8,
    Certificate = 9,
    Repeated = 10,
    Conflicting = 11,
    ParentMissing = 12,
    ParentWrong = 13,
    StoreFull = 14,
    Turn = 15,
    ContentsTooLong = 16,
    NameWrong = 17,
}

impl Refusal {
    /// All of them, number 1 first.
    pub const ALL: [Refusal; 17] = [
        Refusal::Settings,
        Refusal::Regions,
        Refusal::Length,
        Refusal::Kind,
        Refusal::Content,
        Refusal::Party,
        Refusal::ViewBelow,
        Refusal::ViewAbove,
        Refusal::Certificate,
        Refusal::Repeated,
        Refusal::Conflicting,
        Refusal::ParentMissing,
        Refusal::ParentWrong,
        Refusal::StoreFull,
        Refusal::Turn,
        Refusal::ContentsTooLong,
        Refusal::NameWrong,
    ];

    /// The refusal of this number; none for 0, which is acceptance, and from 18 on.
    ///
    /// ```
    /// use replica::Refusal;
    ///
    /// assert_eq!(Refusal::of(10), Some(Refusal::Repeated));
    /// assert_eq!((Refusal::of(0), Refusal::of(18)), (None, None));
    /// assert!(Refusal::ALL.into_iter().all(|refusal| Refusal::of(refusal.number()) == Some(refusal)));
    /// ```
    pub fn of(number: u64) -> Option<Refusal> {
        Refusal::ALL.into_iter().find(|refusal| refusal.number() == number)
    }

    /// Acceptance, or the refusal of this number. By the library's proof no number above 17 comes back; a higher one
    /// would read as 2.
    pub(crate) fn judge(number: u64) -> Result<(), Refusal> {
        match number {
            0 => Ok(()),
            number => Err(Refusal::of(number).unwrap_or(Refusal::Regions)),
        }
    }

    /// 01's number, 1 to 15, or 02's, 16 and 17.
    pub fn number(self) -> u64 {
        self as u64
    }

    /// 01's condition in short, or 02's.
    pub fn meaning(self) -> &'static str {
        match self {
            Refusal::Settings => {
                "n isn't 3f + 2c + k + 1 or is over 32, the own number is n or above, or the leader list is empty, longer than \
                 64 or has an entry of n or above"
            }
            Refusal::Regions => "a region is too short, or memory or store break a rule",
            Refusal::Length => "a length is wrong, of the slice, its length field, its kind or an inner record",
            Refusal::Kind => "a kind is unknown or out of place",
            Refusal::Content => "padding, a name, a high vote, a signer set or an inner record isn't as it must be",
            Refusal::Party => "the sender is outside of the cluster, oneself, or not the view's leader by the list",
            Refusal::ViewBelow => "the view is below the window or the current view, or 0",
            Refusal::ViewAbove => "the view is above the window, the current view or the limit",
            Refusal::Certificate => "too few signers or timeouts, or a certificate that isn't good",
            Refusal::Repeated => "the same was taken before, or nothing is gained by it",
            Refusal::Conflicting => "another one was taken in its place",
            Refusal::ParentMissing => "the parent or the safe block isn't held",
            Refusal::ParentWrong => {
                "the parent isn't the safe block, or the height isn't the parent's plus 1 or too high"
            }
            Refusal::StoreFull => "the block is new and the store is full",
            Refusal::Turn => "it isn't this replica's turn to propose",
            Refusal::ContentsTooLong => "the contents are longer than 4,096 bytes",
            Refusal::NameWrong => "the name isn't the digest of parent, height and contents",
        }
    }

    /// The same for [`decisive_timeout`](crate::decisive_timeout), which knows no replica: no own number, leader list, window
    /// or current view.
    ///
    /// ```
    /// use replica::Refusal;
    ///
    /// assert_eq!(Refusal::ViewBelow.meaning(), "the view is below the window or the current view, or 0");
    /// assert_eq!(Refusal::ViewBelow.meaning_for_decisive(), "the view is 0");
    /// ```
    pub fn meaning_for_decisive(self) -> &'static str {
        match self {
            Refusal::Settings => "n isn't 3f + 2c + k + 1 or is over 32",
            Refusal::Kind => "the record is no timeout certificate, or an inner kind is out of place",
            Refusal::Content => "padding, a high vote, a signer set or an inner timeout isn't as it must be",
            Refusal::Party => "the sender is outside of the cluster",
            Refusal::ViewBelow => "the view is 0",
            Refusal::ViewAbove => "the view is 2^62 or above",
            Refusal::Certificate => "too few timeouts, or a timeout that isn't good",
            other => other.meaning(),
        }
    }
}

impl fmt::Display for Refusal {
    fn fmt(&self, f: &mut fmt::Formatter<'_>) -> fmt::Result {
        write!(f, "refusal {}: {}", self.number(), self.meaning())
    }
}

impl Error for Refusal {}
