//! Two checks of the hosts' duties, over the states that processes save while they run. A signature that an honest
//! process has saved is one that it made or checked.
//!
//! - Of each kind an honest replica signs one record a view ([`Promises::note`]).
//! - What others know of an honest replica it has saved itself ([`check_saved`]): all state is saved before anything
//!   is sent, and a replica resumes only from its last save.

use std::collections::{HashMap, HashSet};

use oracle::wire;

use crate::card::{Statement, KEPT_BELOW};
use crate::rows::Violation;
use crate::state::Saved;

/// What honest replicas signed: by signer, kind and view.
#[derive(Default)]
pub struct Promises(HashMap<(u16, u16, u64), Vec<u8>>);

impl Promises {
    /// Takes note of what stands in some states. The Byzantine replica signs what it likes.
    pub fn note(&mut self, states: &[(u16, Saved)], byzantine: Option<u16>) -> Result<(), Violation> {
        for statement in statements(states).filter(|statement| Some(statement.signer) != byzantine) {
            let (replica, kind, view) = (statement.signer, wire::kind_of(&statement.bytes), statement.view());
            let first = self.0.entry((replica, kind, view)).or_insert_with(|| statement.bytes.clone());
            if *first != statement.bytes {
                return Err(Violation::SignedTwice { replica, kind, view });
            }
        }
        Ok(())
    }

    pub fn count(&self) -> usize {
        self.0.len()
    }
}

/// What stands in honest states stands in the signer's own state too, if that is read afterwards and the view is one
/// that it keeps.
pub fn check_saved(earlier: &[(u16, Saved)], later: &[(u16, Saved)]) -> Result<(), Violation> {
    for (replica, state) in later {
        let own: HashSet<&Statement> = state.signatures.iter().map(|(statement, _)| statement).collect();
        let is_kept = |statement: &Statement| statement.view() + KEPT_BELOW >= state.view;
        let mut known = statements(earlier).filter(|statement| statement.signer == *replica && is_kept(statement));
        if let Some(statement) = known.find(|statement| !own.contains(statement)) {
            let (kind, view) = (wire::kind_of(&statement.bytes), statement.view());
            return Err(Violation::Unsaved { replica: *replica, kind, view });
        }
    }
    Ok(())
}

fn statements(states: &[(u16, Saved)]) -> impl Iterator<Item = &Statement> {
    states.iter().flat_map(|(_, saved)| &saved.signatures).map(|(statement, _)| statement)
}

#[cfg(test)]
mod tests {
    use super::*;
    use crate::host;
    use oracle::{View, Vote};

    fn vote(signer: u16, view: u64, name: u8) -> Statement {
        Statement::vote(signer, Vote { view: View(view), name: [name; 32] })
    }

    /// A state that holds these.
    fn state(replica: u16, statements: &[Statement]) -> (u16, Saved) {
        let mut saved = host::opened(replica).expect("a replica");
        saved.signatures = statements.iter().map(|statement| (statement.clone(), [0; 16])).collect();
        (replica, saved)
    }

    #[test]
    fn a_second_vote_is_noticed() {
        let mut promises = Promises::default();
        assert_eq!(promises.note(&[state(0, &[vote(1, 1, 1), vote(1, 2, 2), vote(2, 1, 2)])], None), Ok(()));
        assert_eq!(promises.count(), 3);
        let second = [state(3, &[vote(1, 1, 3)])];
        assert_eq!(promises.note(&second, Some(1)), Ok(()));
        let twice = Violation::SignedTwice { replica: 1, kind: 1, view: 1 };
        assert_eq!(promises.note(&second, None), Err(twice));
    }

    #[test]
    fn a_vote_that_was_not_saved_is_noticed() {
        let earlier = [state(0, &[vote(1, 1, 1), vote(2, 1, 1)]), state(1, &[])];
        let mut later = [state(0, &[]), state(1, &[vote(1, 1, 1)])];
        assert_eq!(check_saved(&earlier, &later), Ok(()));
        later[1].1.signatures.clear();
        let unsaved = Violation::Unsaved { replica: 1, kind: 1, view: 1 };
        assert_eq!(check_saved(&earlier, &later), Err(unsaved));
        later[1].1.view = 6; // it has forgotten view 1
        assert_eq!(check_saved(&earlier, &later), Ok(()));
    }
}
