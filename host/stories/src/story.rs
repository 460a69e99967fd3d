//! The story of two blocks for one container, taken from the scripted run that `sim` has for it.

use oracle::{Faults, Protocol, Replica};
use sim::{scenarios, settings, Script};
use view::{Event, Played, Recording, Step};

use crate::make::{commit, vote, B};
use crate::StoredRun;

const ABOUT: &str =
    "Terminals, carriers and forwarders each run one replica; a container is handed over when its block is released. Blocks \
     A and B give the same container to different people, so at most one of them may ever be released. Here one replica \
     lies, and one stops.";

/// How the honest replicas rank a weak certificate against a block certificate of its view.
#[derive(Clone, Copy, Debug, PartialEq, Eq)]
pub enum Ranking {
    /// As 01 says: below it.
    Right,
    /// Above it.
    Wrong,
}

impl Ranking {
    /// The oracle's name for the error.
    pub const FAULT: &'static str = "weak-over-block";

    pub fn faults(self) -> Faults {
        let mut faults = Faults::NONE;
        if self == Ranking::Wrong {
            assert!(faults.set(Self::FAULT));
        }
        faults
    }

    fn protocol(self) -> Protocol {
        Protocol::new(settings::six(), self.faults())
    }

    fn title(self) -> &'static str {
        match self {
            Ranking::Right => "Ranked rightly: one chain",
            Ranking::Wrong => "The same with certificates ranked wrongly: two releases for one container",
        }
    }

    /// One for each step of the script.
    fn captions(self) -> [&'static str; 7] {
        let [builds, ends] = match self {
            Ranking::Right => [
                "A block certificate ranks above votes of its own view, so A is the safe block: 2 builds C on A, \
                 although three of four timeouts speak for B.",
                "1, 4 and 5 follow. Replica 2 releases A, then C. Every honest row begins with A: the container is \
                 released once.",
            ],
            Ranking::Wrong => [
                "Ranked wrongly, the three votes for B (a weak certificate) beat the block certificate for A: 2 \
                 builds C on B.",
                "1, 4 and 5 rank the same way and follow. Replica 2 releases B, then C; but 3 has released A. The \
                 container is released twice.",
            ],
        };
        [
            "Replica 0 leads view 1, and lies: it shows block A to 1, 2 and 3, and block B to 4 and 5. They vote for what \
             they are shown.",
            "0 votes for A as well. So 1, 2 and 3 each count four votes for A: a block certificate. They commit.",
            "Replica 3 counts four commits and releases A. Then it stops, and nobody else knows of it.",
            "The others hear too little. In view 2 nothing is proposed, and the clock of 2 runs out. 0 joins in and \
             now claims a vote for B; 4 and 5 follow with theirs.",
            "The next leader, 2, has four timeouts in hand. Its own carries the block certificate for A; those of \
             0, 4 and 5 give B as their vote of the same view.",
            builds,
            ends,
        ]
    }
}

fn script(ranking: Ranking) -> Script<Replica> {
    let all = scenarios::all::<Replica>();
    let scenario = all.iter().find(|scenario| scenario.name == Ranking::FAULT).expect("sim has the story");
    scenarios::play(scenario, ranking.faults(), ranking.faults())
}

/// The whole story with captions.
pub fn recording(ranking: Ranking) -> Recording {
    let script = script(ranking);
    let mut recording = Recording::cluster(ranking.protocol().settings);
    recording.title = Some(ranking.title().to_string());
    recording.about = Some(ABOUT.to_string());
    for replica in 0..script.cluster.n() {
        let honest = script.cluster.is_honest(replica);
        let list = if honest { &mut recording.opened } else { &mut recording.byzantine };
        list.push(replica as u16);
    }
    for (replica, record) in script.calls() {
        recording.entries.push(view::Entry { replica: *replica as u16, record: record.clone() });
    }
    assert_eq!(script.steps().len(), ranking.captions().len(), "a caption for each step");
    let steps = script.steps().iter().zip(ranking.captions());
    recording.steps = steps.map(|(&first, caption)| Step { first, caption: caption.to_string() }).collect();
    recording
}

pub fn play(ranking: Ranking) -> Played {
    Played::new::<Replica>(&recording(ranking), ranking.faults(), ranking.protocol())
}

/// The inputs of the honest replicas.
pub fn inputs() -> Vec<StoredRun> {
    let recording = recording(Ranking::Right);
    let named = [
        ("story-1", "the story at replica 1: votes and commits A, leads view 2 in silence, follows to C"),
        ("story-2", "the story at replica 2: the next leader, which builds on A and releases A and C"),
        ("story-3", "the story at replica 3: releases A, then hears nothing more"),
        ("story-4", "the story at replica 4: was shown B, follows the timeouts and then C on A"),
        ("story-5", "the story at replica 5: as 4"),
    ];
    assert_eq!(recording.opened.len(), named.len());
    let run = |(&own, (name, about)): (&u16, (&'static str, &'static str))| {
        StoredRun::plain(name, about, recording.input(own))
    };
    recording.opened.iter().zip(named).map(run).collect()
}

/// The story as the next leader lives it, and after it all that still comes for B: it changes nothing.
pub fn next_leader() -> StoredRun {
    let mut input = recording(Ranking::Right).input(2);
    for sender in [4, 5] {
        input.extend(vote(sender, 1, B));
        input.extend(commit(sender, 1, B));
    }
    let about = "replica 2, the next leader: with four timeouts in hand it builds on A; late votes and commits for B \
                 change nothing";
    StoredRun::plain("view-change-keeps-a", about, input)
}

// ---------------------------------------------------------------- both rankings beside each other

/// The calls in which the two runs differ, and the rows of releases side by side.
pub fn beside() -> String {
    let [right, wrong] = [play(Ranking::Right), play(Ranking::Wrong)];
    let mut text =
        String::from("The story with certificates ranked rightly and ranked wrongly: where the runs differ.\n");
    for (one, other) in right.events.iter().zip(&wrong.events) {
        let [a, b] = [words(one, &right), words(other, &wrong)];
        if a != b {
            text.push_str(&format!("\ncall {}, replica {}\n  rightly: {a}\n  wrongly: {b}\n", one.index, one.replica));
        }
    }
    text.push_str("\nReleased, as height and block:\n\n");
    text.push_str(&line("", "ranked rightly", "ranked wrongly"));
    for lane in right.opened.lanes.iter().filter(|lane| !lane.is_byzantine) {
        let replica = lane.replica;
        text.push_str(&line(&format!("replica {replica}"), &row(&right, replica), &row(&wrong, replica)));
    }
    text.push_str(&line("verdict", &verdict(&right), &verdict(&wrong)));
    text
}

/// A call and what it wrote.
fn words(event: &Event, played: &Played) -> String {
    let protocol = &played.opened.protocol;
    let written = view::written_words(event, protocol);
    let sends = if written.is_empty() { "nothing".to_string() } else { written.join("; ") };
    format!(
        "{} -> {}, writes {sends}",
        view::call_words(event, protocol),
        view::answer_words(event.answer, event.kind())
    )
}

fn row(played: &Played, replica: u16) -> String {
    let names = played.row(replica);
    let blocks = names.iter().enumerate().map(|(at, name)| format!("{} {}", at + 1, sim::words::name(name)));
    let blocks: Vec<String> = blocks.collect();
    if blocks.is_empty() {
        "-".to_string()
    } else {
        blocks.join(", ")
    }
}

fn verdict(played: &Played) -> String {
    match played.two_chains() {
        Some((height, ..)) => format!("TWO CHAINS from height {height} on"),
        None => "one chain".to_string(),
    }
}

fn line(what: &str, right: &str, wrong: &str) -> String {
    format!("{:<12}| {:<20}| {wrong}", what, right).trim_end().to_string() + "\n"
}
