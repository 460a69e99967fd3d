//! 02, 2.1: "The opening takes a list of 1 to 64 box numbers, and the leader of view v is entry (v−1) mod the list's
//! length."

mod common;

use common::*;
use oracle::lent::Rooms;
use oracle::{answer, regions, run, wire, Leaders, Refusal, Replica, Settings, View, GENESIS};

/// Replica 1 stands in it three times, 2, 4 and 5 not at all.
const UNEVEN: [u8; 5] = [1, 0, 1, 1, 3];

fn settings() -> Settings {
    Settings::new(1, 1, 0).expect("good settings")
}

/// A proposal of view v on genesis: by this sender, entered from v−1 by a block certificate.
fn proposal(sender: u16, view: u64) -> Vec<u8> {
    let signers = if view == 1 { 0 } else { FOUR };
    proposal_record(sender, view, &block(9, GENESIS, 1), &certificate_record(sender, view - 1, GENESIS, signers))
}

#[test]
fn lists_are_taken_or_refused() {
    let long: Vec<u8> = (0..64).map(|i| i % 6).collect();
    for list in [&[5][..], &UNEVEN, &IN_TURN, &long] {
        let replica = Replica::open(1, 1, 0, 6, 2, list).expect("a list that is taken");
        assert_eq!(replica.memory.leaders.list(), list);
    }
    let longer: Vec<u8> = (0..65).map(|i| i % 6).collect();
    for list in [&[][..], &[6], &[0, 1, 6], &[255], &longer, &[0; 1_000]] {
        assert_eq!(Replica::open(1, 1, 0, 6, 2, list).err(), Some(Refusal::Settings), "{list:?}");
    }
}

#[test]
fn the_list_goes_round() {
    let led = |list: &[u8], views: std::ops::Range<u64>| {
        let leaders = Leaders::new(list, settings()).expect("a list that is taken");
        views.map(|view| leaders.leader(View(view))).collect::<Vec<_>>()
    };
    assert_eq!(led(&UNEVEN, 1..12), [1, 0, 1, 1, 3, 1, 0, 1, 1, 3, 1]);
    assert_eq!(led(&[4], 1..4), [4, 4, 4]);
    let mut long = [2; 64];
    long[63] = 3;
    assert_eq!(led(&long, 62..67), [2, 2, 3, 2, 2]);
    // 2^62 is 4 above a multiple of 5, and 2^64 − 1 is one
    assert_eq!(led(&UNEVEN, View::MAX.0..View::MAX.0 + 3), [1, 3, 1]);
    assert_eq!(led(&UNEVEN, u64::MAX - 2..u64::MAX), [1, 1]);
}

/// 02: "the list 0 to n−1 must behave exactly as today": 01's "The leader of view v ≥ 1 is box (v−1) mod n."
#[test]
fn in_turn_is_01s_rule() {
    for (f, c, k) in [(1, 1, 0), (2, 2, 2), (7, 5, 0), (0, 4, 0), (0, 0, 0), (1, 2, 2), (0, 0, 31)] {
        let settings = Settings::new(f, c, k).expect("good settings");
        let (leaders, n) = (Leaders::in_turn(settings), u64::from(settings.n()));
        for view in (1..100).chain(View::MAX.0 - 40..View::MAX.0 + 40).chain(u64::MAX - 40..=u64::MAX) {
            assert_eq!(u64::from(leaders.leader(View(view))), (view - 1) % n);
        }
    }
}

/// 6: "proposal of a view ≥ 1 not by its leader"
#[test]
fn proposals_by_the_lists_leader_are_taken() {
    for (view, leader, in_turn) in [(1, 1, 0), (2, 0, 1), (4, 1, 3), (5, 3, 4), (6, 1, 5), (8, 1, 1)] {
        let replica = six_led(2, &UNEVEN);
        let out = accept(&mut replica.clone(), &[proposal(leader, view)]);
        assert_eq!(kinds(&out).last(), Some(&wire::kind::VOTE), "view {view}");
        if in_turn != leader {
            assert_eq!(answer_to(&mut replica.clone(), &proposal(in_turn, view)), 6, "view {view}");
        }
    }
}

/// 6 comes before 8.
#[test]
fn the_list_leads_past_the_last_view() {
    let replica = six_led(2, &UNEVEN);
    for (view, leader) in [(View::MAX.0, 1), (View::MAX.0 + 1, 3), (View::MAX.0 + 2, 1), (u64::MAX, 3)] {
        for sender in [0, 1, 3, 4] {
            let expected = if sender == leader { 8 } else { 6 };
            assert_eq!(answer_to(&mut replica.clone(), &proposal(sender, view)), expected, "{sender} in {view}");
        }
    }
}

/// 15: "not leader"
#[test]
fn only_the_lists_leader_proposes() {
    for own in 0..6 {
        let mut replica = six_led(own, &UNEVEN);
        for view in 1..12 {
            let leads = u64::from(UNEVEN[(view as usize - 1) % 5]) == own;
            let answered = answer(replica.clone().propose(name(1), &mut Vec::new()));
            assert_eq!(answered, if leads { 0 } else { 15 }, "{own} in {view}");
            accept(&mut replica, &[certificate_record(3, view, GENESIS, FOUR)]);
        }
    }
}

/// In garbage an entry of n or more is a leader that nobody is.
#[test]
fn nobody_leads_by_an_entry_from_n_on() {
    let mut replica = six_led(2, &UNEVEN);
    let mut place = [7; Leaders::MOST];
    place[1] = 2;
    replica.memory.leaders = Leaders::of(2, place).expect("two entries");
    assert_eq!(answer(replica.clone().propose(name(1), &mut Vec::new())), 15);
    for sender in [0, 1, 3] {
        assert_eq!(answer_to(&mut replica, &proposal(sender, 1)), 6);
    }
    assert_eq!(answer_to(&mut replica, &proposal(7, 1)), 5, "its sender is refused before");
    accept(&mut replica, &[certificate_record(3, 1, GENESIS, FOUR)]);
    assert_eq!(answer(replica.propose(name(1), &mut Vec::new())), 0);
}

/// A second opening puts its list over the first; the bytes behind it stay.
#[test]
fn reopening_takes_the_new_list() {
    let mut rooms = Rooms::empty();
    let open = |rooms: &mut Rooms, list: &[u8]| rooms.regions().open([1, 1, 0, 6, 2], list);
    let leader = |rooms: &mut Rooms| rooms.regions().load().expect("a replica").leader(View(2));
    assert_eq!(open(&mut rooms, &UNEVEN), Ok(0));
    assert_eq!(leader(&mut rooms), 0);
    assert_eq!(open(&mut rooms, &[]), Err(Refusal::Settings));
    assert_eq!(leader(&mut rooms), 0);
    assert_eq!(open(&mut rooms, &[5, 4]), Ok(0));
    assert_eq!(leader(&mut rooms), 4);
    assert_eq!(wire::u16_at(&rooms.memory, regions::LEADERS_LENGTH), 2);
    assert_eq!(rooms.memory[regions::LEADERS..][..6], [5, 4, 1, 1, 3, 0]);
}

/// No call changes the list, whatever it does.
#[test]
fn calls_keep_the_list() {
    let mut rooms = Rooms::empty();
    rooms.memory.fill(0xEE);
    assert_eq!(rooms.regions().open([1, 1, 0, 6, 2], &UNEVEN), Ok(0));
    let before = rooms.memory[12..80].to_vec();
    for record in
        [proposal(1, 4), timeout_record(&timeout(3, 4)), timeouts_record(1, 5, &[0, 1, 3, 4].map(|i| timeout(i, 5)))]
    {
        assert!(rooms.regions().call(|replica, out| run::step(replica, &record, out)).is_ok());
        assert_eq!(rooms.memory[12..80], before);
    }
}

/// The program over lent regions takes the list behind an opening's 24 bytes.
#[test]
fn openings_over_lent_regions_have_the_list() {
    let opening = |list: &[u8]| record(|out| wire::write_opening_with(out, [1, 1, 0, 6, 2], list));
    let mut rooms = Rooms::empty();
    assert_eq!(rooms.step(&opening(&[])), Err(Refusal::Settings));
    assert_eq!(rooms.step(&opening(&[0; 65])), Err(Refusal::Settings));
    assert_eq!(rooms.step(&opening(&UNEVEN)), Ok(0));
    assert_eq!(rooms.memory[regions::LEADERS..][..5], UNEVEN);
}
