//! The order in which the replicas of a cluster lead.

use crate::settings::Settings;
use crate::types::View;

/// A leader list. 02, 2.1: "The opening takes a list of 1 to 64 box numbers, and the leader of view v is entry (v−1) mod
/// the list's length. A box may stand in it several times or not at all." In garbage an entry may be n or more: a leader
/// that nobody is.
#[derive(Clone, Copy, Debug)]
pub struct Leaders {
    /// 1 to `MOST`.
    len: usize,
    place: [u8; Self::MOST],
}

impl Leaders {
    /// The most entries.
    pub const MOST: usize = 64;

    /// A list that opening takes. 02: "An entry of n or more, or an empty or longer list, is refused".
    pub fn new(list: &[u8], settings: Settings) -> Option<Leaders> {
        let mut place = [0; Self::MOST];
        place.get_mut(..list.len())?.copy_from_slice(list);
        let known = list.iter().all(|&number| u32::from(number) < settings.n());
        Self::of(list.len(), place).filter(|_| known)
    }

    /// 01's order, which 02 keeps as "the list 0 to n−1".
    pub fn in_turn(settings: Settings) -> Leaders {
        let numbers: Vec<u8> = (0..settings.n() as u8).collect();
        Self::new(&numbers, settings).expect("at most 32 numbers, all below n")
    }

    /// One of this length in a place of these bytes, the left over ones behind it included; none where refusal 2 turns
    /// the length away.
    pub fn of(len: usize, place: [u8; Self::MOST]) -> Option<Leaders> {
        (1..=Self::MOST).contains(&len).then_some(Leaders { len, place })
    }

    /// The same list over what stood in its place: the bytes behind it stay.
    pub fn over(mut self, mut place: [u8; Self::MOST]) -> Leaders {
        place[..self.len].copy_from_slice(self.list());
        self.place = place;
        self
    }

    pub fn list(&self) -> &[u8] {
        &self.place[..self.len]
    }

    /// All bytes of its place.
    pub fn place(&self) -> &[u8; Self::MOST] {
        &self.place
    }

    /// 02: "the leader of view v is entry (v−1) mod the list's length", for v ≥ 1.
    pub fn leader(&self, view: View) -> u16 {
        let entry = (view.0 - 1) % self.len as u64;
        self.place[entry as usize].into()
    }
}

/// Left over bytes don't count.
impl PartialEq for Leaders {
    fn eq(&self, other: &Leaders) -> bool {
        self.list() == other.list()
    }
}

impl Eq for Leaders {}
