//! What a run came to, in a few lines.

use std::collections::{BTreeMap, BTreeSet};
use std::fmt;
use std::ops::RangeInclusive;

use oracle::wire::{self, kind};
use oracle::Name;
use sim::words;

use crate::meaning::meaning;
use crate::play::{Event, Opened, State};
use crate::text::state_words;
use crate::unsent::Unsent;

/// At most this many releases of a replica are named.
const NAMED: usize = 12;

#[derive(Default)]
struct Replica {
    calls: u64,
    accepted: u64,
    releases: u64,
    /// The last few, with their heights.
    last: Vec<(Name, u64)>,
    state: Option<State>,
}

/// Counts events; shown with `Display`.
#[derive(Default)]
pub struct Summary {
    calls: u64,
    refusals: BTreeMap<(u16, Option<u16>), u64>,
    written: BTreeMap<u16, u64>,
    replicas: BTreeMap<u16, Replica>,
    /// The names that accepted calls are about, by what is shown of them.
    names: BTreeMap<String, BTreeSet<Name>>,
    unsent: Unsent,
    reached: u64,
}

impl Summary {
    pub fn new(opened: &Opened) -> Summary {
        let mut summary = Summary { unsent: Unsent::new(opened), ..Summary::default() };
        for lane in opened.lanes.iter().filter(|lane| !lane.is_byzantine) {
            summary.replicas.entry(lane.replica).or_default();
        }
        summary
    }

    pub fn event(&mut self, event: &Event) {
        self.calls += 1;
        self.unsent.event(event);
        self.reached = event.reached;
        if let Some(name) = event.name().filter(|_| event.is_accepted()) {
            self.names.entry(words::name(&name)).or_default().insert(name);
        }
        if !event.is_accepted() {
            let call = event.kind().filter(|kind| KINDS.contains(kind));
            *self.refusals.entry((event.answer, call)).or_default() += 1;
        }
        for record in &event.written {
            *self.written.entry(wire::kind_of(record)).or_default() += 1;
        }
        let replica = self.replicas.entry(event.replica).or_default();
        replica.calls += 1;
        replica.accepted += u64::from(event.is_accepted());
        replica.state = Some(event.after);
        for release in event.releases() {
            replica.releases += 1;
            replica.last.push(release);
            if replica.last.len() > NAMED {
                replica.last.remove(0);
            }
        }
    }
}

/// Kinds that are counted by themselves.
const KINDS: RangeInclusive<u16> = kind::VOTE..=kind::OPENING;

/// What a kind of record is called.
fn kind_words(number: Option<u16>) -> String {
    let words = match number {
        Some(kind::VOTE) => "vote",
        Some(kind::COMMIT) => "commit",
        Some(kind::BLOCK_CERTIFICATE) => "block certificate",
        Some(kind::TIMEOUT) => "timeout",
        Some(kind::TIMEOUT_CERTIFICATE) => "timeout certificate",
        Some(kind::PROPOSAL) => "proposal",
        Some(kind::BLOCK) => "block",
        Some(kind::RELEASE) => "release",
        Some(kind::TIMER) => "timer",
        Some(kind::PROPOSE) => "propose",
        Some(kind::OPENING) => "opening",
        Some(other) => return format!("kind {other}"),
        None => "other kind, or no header",
    };
    words.to_string()
}

impl fmt::Display for Summary {
    fn fmt(&self, out: &mut fmt::Formatter<'_>) -> fmt::Result {
        writeln!(out, "{} calls, highest view {}", self.calls, self.reached)?;
        for (number, count) in &self.written {
            writeln!(out, "  wrote {count:>7}  {}", kind_words(Some(*number)))?;
        }
        for ((number, call), count) in &self.refusals {
            writeln!(out, "  refused {count:>5}  {}: {number}, {}", kind_words(*call), meaning(*number, *call))?;
        }
        for (number, replica) in &self.replicas {
            write!(out, "replica {number}: {} of {} calls accepted", replica.accepted, replica.calls)?;
            match &replica.state {
                Some(state) => writeln!(out, "; {}", state_words(state))?,
                None => writeln!(out)?,
            }
            writeln!(out, "  {}", releases(replica))?;
        }
        for (shown, names) in self.names.iter().filter(|(_, names)| names.len() > 1) {
            writeln!(out, "note: {} different names are shown as {shown}", names.len())?;
        }
        match self.unsent.words() {
            Some(words) => writeln!(out, "note: {words}"),
            None => Ok(()),
        }
    }
}

fn releases(replica: &Replica) -> String {
    let named: Vec<String> =
        replica.last.iter().map(|(name, height)| format!("{height} {}", words::name(name))).collect();
    match replica.releases {
        0 => "released nothing".to_string(),
        count if count as usize > NAMED => format!("released {count}, the last: {}", named.join(", ")),
        _ => format!("released {}", named.join(", ")),
    }
}
