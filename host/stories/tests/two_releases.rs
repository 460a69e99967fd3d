//! The story with certificates ranked rightly and wrongly.

use oracle::wire::{self, kind};
use oracle::{Name, Replica};
use stories::Ranking;
use view::{Event, Played, Recording};

fn played(ranking: Ranking) -> Played {
    let recording = stories::recording(ranking);
    let protocol = oracle::Protocol::new(recording.settings, ranking.faults());
    Played::new::<Replica>(&recording, ranking.faults(), protocol)
}

/// What each honest replica that released something released first.
fn first_releases(played: &Played) -> Vec<(u16, Name)> {
    let rows = played.opened.lanes.iter().map(|lane| (lane.replica, played.row(lane.replica)));
    rows.filter_map(|(replica, row)| Some((replica, *row.first()?))).collect()
}

const A: Name = [b'A'; 32];
const B: Name = [b'B'; 32];

#[test]
fn ranked_wrongly_two_rows_differ_at_height_1() {
    let played = played(Ranking::Wrong);
    assert_eq!(first_releases(&played), [(2, B), (3, A)]);
    assert_eq!(played.two_chains(), Some((1, 2, 3)));
}

#[test]
fn ranked_rightly_they_are_the_same() {
    let played = played(Ranking::Right);
    assert_eq!(first_releases(&played), [(2, A), (3, A)]);
    assert_eq!(played.two_chains(), None);
}

#[test]
fn both_stand_side_by_side_in_the_text() {
    let text = stories::beside();
    assert!(text.contains("replica 2   | 1 A, 2 C            | 1 B, 2 C\n"), "{text}");
    assert!(text.contains("replica 3   | 1 A                 | 1 A\n"), "{text}");
    assert!(text.contains("verdict     | one chain           | TWO CHAINS from height 1 on\n"), "{text}");
}

fn first_of(played: &Played, replica: u16, wanted: u16) -> Option<(&Event, &[u8])> {
    let events = played.events.iter().filter(|event| event.replica == replica);
    let mut written = events.flat_map(|event| event.written.iter().map(move |record| (event, &record[..])));
    written.find(|(_, record)| wire::kind_of(record) == wanted)
}

/// "The next leader has four timeouts in hand", and builds on A.
#[test]
fn the_next_leader_has_exactly_four_timeouts() {
    for (ranking, parent) in [(Ranking::Right, A), (Ranking::Wrong, B)] {
        let played = played(ranking);
        let (_, certificate) = first_of(&played, 2, kind::TIMEOUT_CERTIFICATE).expect("a timeout certificate");
        assert_eq!(wire::Timeouts::of(certificate).senders().collect::<Vec<_>>(), [0, 2, 4, 5]);
        let (_, proposal) = first_of(&played, 2, kind::PROPOSAL).expect("a proposal");
        assert_eq!(wire::name_at(proposal, 48), parent);
    }
}

/// "One replica gathers enough for A and releases. The others .. time out."
#[test]
fn one_replica_releases_before_anyone_times_out() {
    let played = played(Ranking::Right);
    let release = played.events.iter().find(|event| event.releases().count() > 0).expect("a release");
    assert_eq!(release.replica, 3);
    let is_timeout = |record: &Vec<u8>| wire::kind_of(record) == kind::TIMEOUT;
    let timeouts: Vec<&Event> = played.events.iter().filter(|event| event.written.iter().any(is_timeout)).collect();
    assert_eq!(timeouts.iter().map(|event| event.replica).collect::<Vec<_>>(), [2, 4, 5]);
    assert!(timeouts.iter().all(|event| event.index > release.index));
}

/// No replica refuses anything, and 3 hears nothing after its release.
#[test]
fn every_call_of_the_story_is_accepted() {
    for ranking in [Ranking::Right, Ranking::Wrong] {
        assert!(played(ranking).events.iter().all(Event::is_accepted));
    }
    let played = played(Ranking::Right);
    let last = played.events.iter().rfind(|event| event.replica == 3).unwrap();
    assert_eq!(last.releases().count(), 1);
}

/// Replicas that rank rightly turn the wrong leader's proposal away: its parent isn't the safe block.
#[test]
fn replicas_that_rank_rightly_refuse_the_wrong_proposal() {
    let recording = stories::recording(Ranking::Wrong);
    let protocol = oracle::Protocol::new(recording.settings, Ranking::Right.faults());
    let played = Played::new::<Replica>(&recording, Ranking::Right.faults(), protocol);
    let proposals = played.events.iter().filter(|event| event.kind() == Some(kind::PROPOSAL) && event.reached == 3);
    assert_eq!(proposals.map(|event| (event.replica, event.answer)).collect::<Vec<_>>(), [(1, 13), (4, 13), (5, 13)]);
}

/// The calls of the inputs of single replicas are those of the whole story.
#[test]
fn the_whole_story_reads_back() {
    for ranking in [Ranking::Right, Ranking::Wrong] {
        let recording = stories::recording(ranking);
        assert_eq!(Recording::read(recording.write().as_bytes()), Ok(recording));
    }
}
