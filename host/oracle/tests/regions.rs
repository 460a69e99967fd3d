//! A replica in lent regions: where each byte stands, and which bytes stay.

mod common;

use common::*;
use oracle::lent::Rooms;
use oracle::{regions, run, wire, Certificate, Refusal, View, Vote, GENESIS};

/// Rooms of bytes that nothing here writes.
fn rooms() -> Rooms {
    let mut rooms = Rooms::empty();
    rooms.counters.fill(0xEE);
    rooms.memory.fill(0xEE);
    rooms.store.fill(0xEE);
    rooms
}

fn opened() -> Rooms {
    let mut rooms = rooms();
    assert_eq!(rooms.regions().open([1, 1, 0, 6, 2], &IN_TURN), Ok(0));
    rooms
}

fn call(rooms: &mut Rooms, record: &[u8]) -> oracle::Reply {
    rooms.regions().call(|replica, out| run::step(replica, record, out))
}

#[test]
fn lengths_are_the_interfaces() {
    assert_eq!((regions::COUNTERS, regions::MEMORY, regions::BLOCK, regions::STORE), (224, 34_568, 72, 128 * 72));
}

#[test]
fn opening_leaves_the_free_bytes() {
    let Rooms { counters, memory, store, .. } = opened();
    assert_eq!((counters[0], counters[1..].iter().all(|byte| *byte == 0)), (1, true));
    assert_eq!(memory[..16], [1, 0, 1, 0, 0, 0, 2, 0, 0, 0, 56, 0, 6, 0, 0xEE, 0xEE]);
    assert_eq!(memory[16..22], IN_TURN);
    assert!(memory[22..80].iter().all(|byte| *byte == 0xEE), "behind the leader list");
    let genesis = record(|out| wire::write_block_certificate(out, 2, &Certificate::GENESIS));
    assert_eq!(memory[80..136], genesis);
    assert!(memory[136..3_688].iter().all(|byte| *byte == 0xEE), "behind the entry certificate");
    assert!(memory[3_688..34_568].iter().all(|byte| *byte == 0), "kept votes, commits and timeouts");
    assert!(memory[34_568..].iter().chain(&store).all(|byte| *byte == 0xEE));
}

#[test]
fn refused_openings_leave_every_byte() {
    let mut rooms = rooms();
    let before = rooms.clone();
    assert_eq!(rooms.regions().open([1, 1, 0, 6, 6], &IN_TURN), Err(Refusal::Settings));
    for list in [&[][..], &[6], &[0; 65]] {
        rooms.lent = [0, 0, 0]; // 1 comes before 2
        assert_eq!(rooms.regions().open([1, 1, 0, 6, 2], list), Err(Refusal::Settings));
    }
    for short in [[34_567, 128, 32_768], [34_568, 127, 32_768]] {
        rooms.lent = short;
        assert_eq!(rooms.regions().open([1, 1, 0, 6, 2], &IN_TURN), Err(Refusal::Regions));
    }
    rooms.lent = before.lent;
    assert!(rooms == before);
}

#[test]
fn votes_commits_and_timeouts_stand_in_their_rows() {
    let mut rooms = opened();
    let raw = timeout_record(&timeout(3, 4));
    for record in [vote_record(5, 3, name(7)), commit_record(4, 2, name(8)), raw.clone()] {
        assert_eq!(call(&mut rooms, &record), Ok(0));
    }
    let row = |at: usize| wire::u64_at(&rooms.memory, at);
    let vote = 3_688 + 3 * 1_032;
    assert_eq!((row(vote), wire::name_at(&rooms.memory, vote + 8 + 5 * 32)), (1 << 5, name(7)));
    let commit = 11_944 + 2 * 1_032;
    assert_eq!((row(commit), wire::name_at(&rooms.memory, commit + 8 + 4 * 32)), (1 << 4, name(8)));
    let kept = 20_200; // 4 mod 4
    assert_eq!((row(kept), &rooms.memory[kept + 8 + 3 * 112..][..112]), (1 << 3, &raw[..]));
}

#[test]
fn blocks_stand_in_the_store_in_their_order() {
    let mut rooms = opened();
    for block in [block(1, GENESIS, 1), block(2, name(1), 2)] {
        assert_eq!(call(&mut rooms, &block_record(3, &block)), Ok(0));
    }
    assert_eq!(wire::u16_at(&rooms.memory, 8), 2);
    assert_eq!((wire::name_at(&rooms.store, 72), wire::name_at(&rooms.store, 104)), (name(2), name(1)));
    assert_eq!(wire::u64_at(&rooms.store, 136), 2);
    assert!(rooms.store[144..].iter().all(|byte| *byte == 0xEE));
}

/// After a release the kept entries stand in front, and behind them what stood there.
#[test]
fn a_drop_leaves_what_stood_behind() {
    let mut rooms = opened();
    let blocks = [block(1, GENESIS, 1), block(9, GENESIS, 1), block(2, name(1), 2)];
    for block in &blocks {
        assert_eq!(call(&mut rooms, &block_record(3, block)), Ok(0));
    }
    for sender in [0, 1, 3, 4] {
        call(&mut rooms, &commit_record(sender, 1, name(1))).expect("a first commit");
    }
    assert_eq!(wire::u16_at(&rooms.memory, 8), 1);
    let names = [0, 72, 144].map(|at| wire::name_at(&rooms.store, at));
    assert_eq!(names, [name(2), name(9), name(2)]);
    assert_eq!(wire::name_at(&rooms.counters, 152), name(1));
}

/// The rows of the views that come in become zero; what is longer than the new entry certificate stays behind it.
#[test]
fn entering_zeroes_rows_and_keeps_left_over_bytes() {
    let mut rooms = opened();
    let timeouts: Vec<_> = [0, 1, 3, 4].into_iter().map(|sender| timeout(sender, 1)).collect();
    let long = timeouts_record(3, 1, &timeouts);
    assert_eq!(call(&mut rooms, &long), Ok(long.len()));
    rooms.memory[3_688 + 8 + 1_032 * 6] = 0xEE; // left over in the row of view 6, which has no mask
    assert_eq!(call(&mut rooms, &certificate_record(3, 2, name(1), FOUR)), Ok(56 + 48));
    assert_eq!(wire::u16_at(&rooms.memory, 10), 56);
    assert_eq!(rooms.memory[136..80 + long.len()], long[56..]);
    assert_eq!(rooms.memory[3_688 + 8 + 1_032 * 6], 0);
    assert_eq!(wire::u64_at(&rooms.memory, 11_944 + 1_032 * 2), 1 << 2, "the own commit");
}

#[test]
fn refused_calls_leave_every_byte() {
    let mut rooms = opened();
    call(&mut rooms, &record(|out| wire::write_timer(out, View(1)))).expect("the first timer");
    let before = rooms.clone();
    for (record, refusal) in [
        (record(|out| wire::write_timer(out, View(1))), Refusal::Repeated),
        (record(|out| wire::write_propose(out, name(1))), Refusal::Turn),
        (vote_record(3, 9, name(1)), Refusal::ViewAbove),
    ] {
        assert_eq!(call(&mut rooms, &record), Err(refusal));
        assert!(rooms == before);
    }
}

/// Every rule of refusal 2, one at a time.
#[test]
fn regions_that_break_a_rule_are_turned_away() {
    let breaks: [fn(&mut Rooms); 18] = [
        |rooms| rooms.lent[0] -= 1,
        |rooms| rooms.lent[1] -= 1,
        |rooms| rooms.lent[2] -= 1,
        |rooms| rooms.memory[0] = 10,  // f: n = 33
        |rooms| rooms.memory[2] = 15,  // c: n = 34
        |rooms| rooms.memory[4] = 27,  // k: n = 33
        |rooms| rooms.memory[6] = 6,   // own number
        |rooms| rooms.memory[8] = 129, // held blocks
        |rooms| rooms.memory[10] = 55, // length of the entry certificate
        |rooms| rooms.memory[10..12].copy_from_slice(&[0xFF, 0xFF]),
        |rooms| rooms.memory[84] = 4,   // its kind
        |rooms| rooms.memory[84] = 6,   // its kind, without that length
        |rooms| put_timeouts(rooms, 7), // more than n
        |rooms| rooms.memory[12] = 0,   // length of the leader list
        |rooms| rooms.memory[12] = 65,
        |rooms| rooms.memory[13] = 1,
        |rooms| rooms.counters[0] = 0, // view
        |rooms| rooms.counters[..8].copy_from_slice(&(View::MAX.0 + 1).to_le_bytes()),
    ];
    for (i, break_rule) in breaks.iter().enumerate() {
        let mut rooms = opened();
        break_rule(&mut rooms);
        let before = rooms.clone();
        let vote = record(|out| wire::write_vote(out, 3, Vote { view: View(1), name: name(1) }));
        assert_eq!(call(&mut rooms, &vote), Err(Refusal::Regions), "rule {i}");
        assert!(rooms == before);
    }
    let mut rooms = opened();
    put_timeouts(&mut rooms, 6);
    rooms.memory[12] = 64;
    assert_eq!(call(&mut rooms, &vote_record(3, 1, name(1))), Ok(0));
}

/// 02, 2.2: "every k ≥ 0 is taken as long as n is at most 32", in memory as at an opening.
#[test]
fn settings_of_at_most_32_replicas_are_let_by() {
    for (f, c, k) in [(0, 1, 0), (1, 0, 0), (1, 1, 26), (1, 14, 0), (9, 1, 2), (0, 0, 31)] {
        let mut rooms = opened();
        for (place, number) in [f, c, k].into_iter().enumerate() {
            rooms.memory[2 * place] = number;
        }
        assert_eq!(call(&mut rooms, &vote_record(1, 1, name(1))), Ok(0), "{f} {c} {k}");
    }
}

/// An entry certificate of so many timeouts, whatever they are.
fn put_timeouts(rooms: &mut Rooms, count: u16) {
    rooms.memory[10..12].copy_from_slice(&(24 + 112 * count).to_le_bytes());
    rooms.memory[84] = 6;
    rooms.memory[96..98].copy_from_slice(&count.to_le_bytes());
}
