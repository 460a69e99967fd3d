//! Plays a recording on replicas, call by call.

use oracle::wire::{self, kind};
use oracle::{Leaders, Name, Protocol, Refusal, View};

use crate::choice::{Choice, Choices};
use crate::recording::{Call, Error, Recording, Step};
use crate::shown::{hand_in, Shown};

/// What is shown of a replica's state.
#[derive(Clone, Copy, Debug, PartialEq, Eq)]
pub struct State {
    pub view: u64,
    pub timed: u64,
    pub lock: (u64, Name),
    /// The tip's.
    pub height: u64,
}

impl State {
    fn of<C: Shown>(replica: &C) -> State {
        State { view: replica.view(), timed: replica.timed(), lock: replica.lock(), height: replica.height() }
    }
}

/// One call and what came of it.
#[derive(Clone, Debug, PartialEq, Eq)]
pub struct Event {
    /// The call's place in the recording, from 1 on.
    pub index: usize,
    pub replica: u16,
    pub record: Vec<u8>,
    /// 0 or the refusal's number.
    pub answer: u16,
    pub written: Vec<Vec<u8>>,
    pub before: State,
    pub after: State,
    /// The choices of the timeout certificates that first come up with it.
    pub choices: Vec<Choice>,
    /// The highest view so far that an accepted call was about and its replica had come to.
    pub reached: u64,
}

impl Event {
    pub fn is_accepted(&self) -> bool {
        self.answer == 0
    }

    pub fn call(&self) -> Call {
        Call::of(&self.record)
    }

    /// The record's kind; none if it has no whole header.
    pub fn kind(&self) -> Option<u16> {
        (self.record.len() >= wire::HEADER).then(|| wire::kind_of(&self.record))
    }

    /// Name and height of each release that it wrote.
    pub fn releases(&self) -> impl Iterator<Item = (Name, u64)> + '_ {
        let releases = self.written.iter().filter(|record| wire::kind_of(record) == kind::RELEASE);
        releases.map(|record| (wire::name_at(record, 16), wire::u64_at(record, 48)))
    }

    /// The name that the call is about.
    pub fn name(&self) -> Option<Name> {
        let (at, length) = match self.kind()? {
            kind::VOTE | kind::COMMIT => (16, wire::VOTE),
            kind::BLOCK_CERTIFICATE => (16, wire::BLOCK_CERTIFICATE),
            kind::PROPOSAL => (16, wire::PROPOSAL),
            kind::BLOCK => (8, wire::BLOCK),
            kind::PROPOSE => (8, wire::PROPOSE),
            _ => return None,
        };
        (self.record.len() >= length).then(|| wire::name_at(&self.record, at))
    }

    /// The view that an accepted call is about.
    fn subject(&self) -> Option<u64> {
        match self.call() {
            Call::Timer(view) => Some(view),
            Call::Propose(_) => Some(self.before.view),
            Call::Record(Some(kind::BLOCK) | None) => None,
            Call::Record(Some(_)) => Some(wire::u64_at(&self.record, 8)),
        }
    }
}

/// A replica of the picture.
#[derive(Clone, Copy, Debug, PartialEq, Eq)]
pub struct Lane {
    pub replica: u16,
    pub is_byzantine: bool,
}

/// What is known of a run before its first call.
#[derive(Clone, Debug)]
pub struct Opened {
    pub title: Option<String>,
    pub about: Option<String>,
    pub protocol: Protocol,
    pub leaders: Leaders,
    /// Ascending by number.
    pub lanes: Vec<Lane>,
    pub steps: Vec<Step>,
    /// Calls in the recording.
    pub calls: usize,
    pub is_cluster: bool,
}

impl Opened {
    /// `protocol` is how the replicas count and rank.
    pub fn new(recording: &Recording, protocol: Protocol) -> Opened {
        let lane = |is_byzantine| move |&replica: &u16| Lane { replica, is_byzantine };
        let mut lanes: Vec<Lane> = recording.opened.iter().map(lane(false)).collect();
        lanes.extend(recording.byzantine.iter().map(lane(true)));
        lanes.sort_by_key(|lane| lane.replica);
        lanes.dedup();
        Opened {
            title: recording.title.clone(),
            about: recording.about.clone(),
            protocol,
            leaders: recording.leaders(),
            lanes,
            steps: recording.steps.clone(),
            calls: recording.entries.len(),
            is_cluster: recording.is_cluster,
        }
    }

    /// Who leads a view.
    pub fn leader(&self, view: u64) -> u16 {
        self.leaders.leader(View(view))
    }
}

/// A whole run.
#[derive(Clone, Debug)]
pub struct Played {
    pub opened: Opened,
    pub events: Vec<Event>,
}

impl Played {
    pub fn new<C: Shown>(recording: &Recording, options: C::Options, protocol: Protocol) -> Played {
        let mut events = Vec::new();
        play::<C, ()>(recording, options, |event| {
            events.push(event);
            Ok(())
        })
        .expect("nothing fails");
        Played { opened: Opened::new(recording, protocol), events }
    }

    /// A replica's row of releases.
    pub fn row(&self, replica: u16) -> Vec<Name> {
        let events = self.events.iter().filter(|event| event.replica == replica);
        events.flat_map(|event| event.releases().map(|(name, _)| name)).collect()
    }

    pub fn longest_row(&self) -> usize {
        self.opened.lanes.iter().map(|lane| self.row(lane.replica).len()).max().unwrap_or(0)
    }

    /// Two replicas whose rows differ, with the height (from 1 on) where they do.
    pub fn two_chains(&self) -> Option<(u64, u16, u16)> {
        let rows: Vec<(u16, Vec<Name>)> =
            self.opened.lanes.iter().map(|lane| (lane.replica, self.row(lane.replica))).collect();
        let differ = |(_, a): &(u16, Vec<Name>), (_, b): &(u16, Vec<Name>)| a.iter().zip(b).position(|(x, y)| x != y);
        let pairs = rows.iter().flat_map(|one| rows.iter().map(move |other| (one, other)));
        pairs.filter_map(|(one, other)| Some((differ(one, other)? as u64 + 1, one.0, other.0))).min()
    }
}

/// Makes the calls of a recording one after another. As in the run program, an input of one replica ends with a record
/// that is refused by 3.
pub fn play<C: Shown, E>(
    recording: &Recording,
    options: C::Options,
    mut each: impl FnMut(Event) -> Result<(), E>,
) -> Result<(), E> {
    let mut replicas: Vec<(u16, C)> =
        recording.opened.iter().map(|&own| (own, open(recording, options, own))).collect();
    let mut choices = Choices::default();
    let mut reached = 1;
    for (at, entry) in recording.entries.iter().enumerate() {
        let (_, replica) = replicas.iter_mut().find(|(own, _)| *own == entry.replica).expect("it is opened");
        let mut event = call(replica, entry.replica, &entry.record);
        event.index = at + 1;
        if event.is_accepted() {
            reached = reached.max(event.subject().unwrap_or(0).min(event.after.view));
            event.choices = choices.of(&event, replica, recording.settings);
        }
        event.reached = reached;
        let stops = !recording.is_cluster && event.answer == Refusal::Length.number();
        each(event)?;
        if stops {
            break;
        }
    }
    Ok(())
}

fn open<C: Shown>(recording: &Recording, options: C::Options, own: u16) -> C {
    let [f, c, k, n, own] = recording.opening(own).map(u64::from);
    let opened = C::open(options, f, c, k, n, own, recording.leaders().list());
    opened.unwrap_or_else(|number| panic!("good settings are refused with {number}"))
}

fn call<C: Shown>(replica: &mut C, own: u16, record: &[u8]) -> Event {
    let before = State::of(replica);
    let mut output = Vec::new();
    let answer = hand_in(replica, record, &mut output);
    Event {
        index: 0,
        replica: own,
        record: record.to_vec(),
        answer,
        written: wire::records(&output).map(<[u8]>::to_vec).collect(),
        before,
        after: State::of(replica),
        choices: Vec::new(),
        reached: 0,
    }
}

/// Runs of single replicas of one cluster as one: call by call for each replica, view by view for all.
pub fn join(runs: Vec<Played>) -> Result<Played, Error> {
    let mut runs = runs.into_iter();
    let Some(mut joined) = runs.next() else {
        return Err(Error("no run".to_string()));
    };
    for run in runs {
        if joined.opened.is_cluster || run.opened.is_cluster {
            return Err(Error("a cluster run stands alone".to_string()));
        }
        if joined.opened.protocol != run.opened.protocol {
            return Err(Error("the files are of clusters with different settings".to_string()));
        }
        if let Some(lane) = run.opened.lanes.iter().find(|lane| joined.opened.lanes.contains(lane)) {
            return Err(Error(format!("two files are of replica {}", lane.replica)));
        }
        joined.opened.lanes.extend(run.opened.lanes);
        joined.opened.calls += run.opened.calls;
        joined.events.extend(run.events);
    }
    joined.opened.lanes.sort_by_key(|lane| lane.replica);
    if !joined.opened.is_cluster {
        joined.events.sort_by_key(|event| (event.reached, event.replica, event.index));
    }
    Ok(joined)
}
