//! 01's "Known results" on the library: settings, and the calls of the listing.

use replica::{Name, Refusal, Replica, Settings, View};

/// As 02, 2.2 has it: (2,0,1) and the ring of ten are taken, a cluster of one too.
#[test]
fn settings_are_taken_or_refused() {
    for (f, c, k, n) in [
        (1, 1, 0, 6),
        (2, 2, 2, 13),
        (7, 5, 0, 32),
        (0, 4, 0, 9),
        (2, 0, 1, 8),
        (1, 2, 2, 10),
        (0, 0, 0, 1),
        (0, 0, 31, 32),
    ] {
        let settings = Settings { f, c, k, n };
        let leaders = settings.in_turn();
        let last = Replica::open(settings, n - 1, &leaders).expect("settings that are taken");
        assert_eq!((last.settings(), u64::from(last.own()), last.leaders()), (settings, n - 1, &leaders[..]));
        assert_eq!(Replica::open(settings, n, &leaders).err(), Some(Refusal::Settings));
        assert_eq!(Replica::open(Settings { n: n + 1, ..settings }, 0, &leaders).err(), Some(Refusal::Settings));
    }
    for (f, c, k, n) in [(8, 4, 0, 33), (0, 0, 32, 33), (0, 0, 0, 0)] {
        assert_eq!(Replica::open(Settings { f, c, k, n }, 0, &[0]).err(), Some(Refusal::Settings), "{f} {c} {k} {n}");
    }
}

/// 02, 2.1: "An entry of n or more, or an empty or longer list, is refused by 1."
#[test]
fn leader_lists_are_taken_or_refused() {
    let settings = Settings { f: 1, c: 1, k: 0, n: 6 };
    for list in [&[5][..], &[1, 0, 1, 1, 3], &[2; 64]] {
        assert_eq!(Replica::open(settings, 0, list).expect("a list that is taken").leaders(), list);
    }
    for list in [&[][..], &[0, 6], &[255], &[2; 65], &[2; 320]] {
        assert_eq!(Replica::open(settings, 0, list).err(), Some(Refusal::Settings), "{list:?}");
    }
}

/// "the leader of view v is entry (v−1) mod the list's length"
#[test]
fn the_lists_leader_proposes() {
    let settings = Settings { f: 1, c: 1, k: 0, n: 6 };
    for own in 0..6 {
        let mut replica = Replica::open(settings, own, &[3, 0]).expect("a list that is taken");
        assert_eq!(replica.propose(Name { bytes: [1; 32] }).is_ok(), own == 3);
    }
}

#[test]
fn the_listing() {
    let settings = Settings { f: 1, c: 1, k: 0, n: 6 };
    let mut replica = Replica::open(settings, 1, &settings.in_turn()).expect("settings that are taken");
    let mut answers = Vec::new();
    for view in [2, 1, 1] {
        answers.push(replica.timer(View(view)).err().map_or(0, Refusal::number));
    }
    answers.push(replica.propose(Name { bytes: [1; 32] }).err().map_or(0, Refusal::number));
    assert_eq!(answers, [8, 0, 10, 15]);
    assert_eq!((replica.view(), replica.timed(), replica.tip().height.0), (View(1), View(1), 0));
}
