//! Whether what honest replicas are said to have sent was sent. 01: "if it is kind 1, 2, 5 or 7 with an honest sender,
//! that box made it earlier in the list".

use std::collections::HashSet;

use oracle::wire::{self, kind};

use crate::play::{Event, Opened, Played};

/// Counts accepted records that their honest senders didn't write earlier in the run of a whole cluster.
#[derive(Default)]
pub struct Unsent {
    honest: Vec<u16>,
    written: HashSet<Vec<u8>>,
    count: u64,
}

fn is_by_its_sender(record: &[u8]) -> bool {
    matches!(wire::kind_of(record), kind::VOTE | kind::COMMIT | kind::TIMEOUT | kind::PROPOSAL)
}

impl Unsent {
    /// Inputs of single replicas don't tell what the others wrote: there nothing is counted.
    pub fn new(opened: &Opened) -> Unsent {
        let honest = opened.lanes.iter().filter(|lane| opened.is_cluster && !lane.is_byzantine);
        Unsent { honest: honest.map(|lane| lane.replica).collect(), ..Unsent::default() }
    }

    pub fn event(&mut self, event: &Event) {
        let record = &event.record;
        let by_honest =
            event.is_accepted() && is_by_its_sender(record) && self.honest.contains(&wire::sender_of(record));
        self.count += u64::from(by_honest && !self.written.contains(record));
        if !self.honest.is_empty() {
            self.written.extend(event.written.iter().filter(|record| is_by_its_sender(record)).cloned());
        }
    }

    /// None if all was sent.
    pub fn words(&self) -> Option<String> {
        let many = match self.count {
            0 => return None,
            1 => "1 accepted record was".to_string(),
            count => format!("{count} accepted records were"),
        };
        Some(format!(
            "{many} never sent by the honest replicas named in them: other replicas were recorded than are shown."
        ))
    }
}

/// The same for a whole run.
pub fn unsent_words(played: &Played) -> Option<String> {
    let mut unsent = Unsent::new(&played.opened);
    played.events.iter().for_each(|event| unsent.event(event));
    unsent.words()
}
