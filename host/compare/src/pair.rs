//! Library and oracle side by side.

use oracle::lent::Rooms;
use oracle::{answer, Faults, Reply};

use crate::difference::{against_before, against_oracle, Difference};
use crate::expected::Expected;
use crate::library::Library;
use crate::step::Step;

pub struct Pair {
    pub expected: Expected,
    library: Library,
    /// The library's regions before the call.
    before: Library,
}

impl Pair {
    /// Both start from the same bytes.
    pub fn new(rooms: Rooms, faults: Faults) -> Pair {
        let library = Library::new(&rooms);
        Pair { before: library.clone(), library, expected: Expected::new(rooms, faults) }
    }

    /// Makes the call on both; what both answer, or the first difference.
    pub fn step(&mut self, step: &Step) -> Result<Reply, Difference> {
        self.before.copy_from(&self.library);
        let expected = self.expected.step(step);
        let got = self.library.step(step);
        let wanted = (u64::from(answer(expected)), expected.unwrap_or(0));
        if (got.refusal, got.written) != wanted {
            return Err(Difference::Reply([(got.refusal, got.written), wanted]));
        }
        if let Some(difference) = against_oracle(self.library.rooms(), self.expected.rooms()) {
            return Err(difference);
        }
        if !self.library.guards_stand() {
            return Err(Difference::Guard);
        }
        let refused = expected.is_err();
        match refused.then(|| against_before(self.library.rooms(), self.before.rooms())).flatten() {
            Some(difference) => Err(difference),
            None => Ok(expected),
        }
    }
}

#[cfg(test)]
mod tests {
    use super::*;
    use crate::run::{Kind, Run};
    use crate::step::AnyCall;
    use oracle::lent::Rooms;
    use streams::Call;

    /// A step after which every byte of the library's regions stays: it is refused.
    fn refused(rooms: &Rooms) -> Step {
        Step { lent: rooms.lent, call: AnyCall::Call(Call::Timer(0)) }
    }

    /// Each byte of each region and beside it is looked at: one that is changed is found, and where it is.
    #[test]
    fn any_changed_byte_is_found() {
        let rooms = Run { kind: Kind::Garbage, seed: 3 }.start();
        let mut pair = Pair::new(rooms.clone(), Faults::NONE);
        assert!(pair.step(&refused(&rooms)).is_ok());
        for (region, length) in pair.library.rooms().map(<[u8]>::len).into_iter().enumerate() {
            for at in (0..length).step_by(97).chain([length - 1]) {
                pair.library.flip(region, at);
                let found = against_oracle(pair.library.rooms(), pair.expected.rooms());
                assert!(matches!(found, Some(Difference::Byte { at: place, .. }) if place == at), "{region} {at}");
                assert!(pair.step(&refused(&rooms)).is_err());
                pair.library.flip(region, at);
            }
        }
        assert!(pair.step(&refused(&rooms)).is_ok());
    }

    #[test]
    fn a_changed_guard_is_found() {
        let rooms = Rooms::empty();
        for guard in 0..8 {
            let mut pair = Pair::new(rooms.clone(), Faults::NONE);
            pair.library.flip_guard(guard);
            assert_eq!(pair.step(&refused(&rooms)), Err(Difference::Guard));
        }
    }

    #[test]
    fn a_refused_call_is_compared_with_what_stood_before() {
        let rooms = Rooms::empty();
        let mut changed = Library::new(&rooms);
        changed.flip(1, 30_000);
        let difference = against_before(changed.rooms(), Library::new(&rooms).rooms());
        assert_eq!(difference, Some(Difference::RefusedChanged { region: "memory", at: 30_000 }));
    }
}
