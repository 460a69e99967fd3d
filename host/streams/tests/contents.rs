//! Calls with contents: what they do by what they do without, the lengths that come up, and what becomes of named blocks.

use std::collections::{BTreeMap, BTreeSet};

use oracle::{answer, wire, Name, Replica, CONTENTS};
use streams::{garbage, play, Call, ContentsCase, Coverage, Kind, Opening, Random, Stream};

/// Makes the call and compares it: 16 comes first; beside a block the answer follows from the case; beside others it is
/// that of the plain call. What is accepted does what the plain call does.
fn compare(replica: &mut Replica, call: &Call) -> u16 {
    let (mut plain, mut plain_out) = (replica.clone(), Vec::new());
    let plain_reply = call.without_contents().make(&mut plain, &mut plain_out);
    let case = ContentsCase::of(replica, call);
    let mut out = Vec::new();
    let reply = call.make(replica, &mut out);
    let expected = match call.contents() {
        Some(contents) if contents.len() > CONTENTS => 16,
        _ => case.map_or(answer(plain_reply), ContentsCase::answer),
    };
    assert_eq!(answer(reply), expected, "{call:?}");
    assert!(reply.is_err() || (reply == plain_reply && *replica == plain && out == plain_out));
    expected
}

#[test]
fn contents_only_add_two_refusals() {
    let mut random = Random::new(3);
    let mut answers = BTreeSet::new();
    for seed in 0..400 {
        let opening = Opening::seeded_led(seed);
        let mut replica = if seed % 2 == 0 { opening.open() } else { garbage(opening, &mut random) };
        let mut stream = Stream::new(seed).with_contents();
        for _ in 0..100 {
            let call = stream.next(&replica);
            answers.insert(compare(&mut replica, &call));
        }
    }
    assert!((3..=17).all(|answer| answers.contains(&answer)), "{answers:?}");
}

/// The block that a call brings, by name.
fn brought(call: &Call) -> Option<Name> {
    match call {
        Call::ProposeWith(name, _) => Some(*name),
        _ => wire::block_of(call.record()?).map(|block| block.name),
    }
}

/// Blocks that came with their contents, as records of both kinds and as own proposals, are voted for and released; so are
/// others.
#[test]
fn named_blocks_are_released() {
    let mut released = BTreeMap::new();
    for seed in 0..60 {
        let mut replica = Opening::seeded_led(seed).open();
        let mut stream = Stream::new(seed).with_contents();
        let mut came: BTreeMap<Name, (Kind, bool)> = BTreeMap::new();
        for _ in 0..1_000 {
            let call = stream.next(&replica);
            let mut out = Vec::new();
            if call.make(&mut replica, &mut out).is_err() {
                continue;
            }
            if let Some(name) = brought(&call) {
                came.entry(name).or_insert((Kind::of(&call), call.contents().is_some()));
            }
            for record in wire::records(&out).filter(|record| wire::kind_of(record) == wire::kind::RELEASE) {
                if let Some(how) = came.get(&wire::name_at(record, 16)) {
                    *released.entry(*how).or_insert(0) += 1;
                }
            }
        }
    }
    println!("{released:?}");
    for how in [(Kind::Proposal, true), (Kind::Block, true), (Kind::Propose, true), (Kind::Block, false)] {
        assert!(released[&how] > 100, "{how:?}: {released:?}");
    }
}

/// Empty ones, the longest, one byte more and far more come beside every kind of call.
#[test]
fn lengths_come_up_beside_every_kind() {
    let mut lengths: BTreeMap<Kind, BTreeSet<usize>> = BTreeMap::new();
    for seed in 0..60 {
        let mut replica = Opening::seeded_led(seed).open();
        let mut stream = Stream::new(seed).with_contents();
        for _ in 0..1_000 {
            let call = stream.next(&replica);
            lengths.entry(Kind::of(&call)).or_default().extend(call.contents().map(<[u8]>::len));
            let _ = call.make(&mut replica, &mut Vec::new());
        }
    }
    for kind in Kind::ALL.into_iter().filter(|kind| *kind != Kind::Timer) {
        let lengths = &lengths[&kind];
        assert!(
            [0, 16, 24, CONTENTS, CONTENTS + 1].iter().all(|length| lengths.contains(length)),
            "{kind:?}: {lengths:?}"
        );
        assert!(lengths.iter().any(|&length| length >= 2 * CONTENTS), "{kind:?}: {lengths:?}");
    }
    assert!(lengths[&Kind::Timer].is_empty());
}

/// Other streams have none, and a timer never has.
#[test]
fn other_streams_have_none() {
    let played = play(Opening::seeded(4), 4, 300, &mut Coverage::default());
    assert!(played.calls.iter().all(|call| call.contents().is_none()));
    let call = Call::Propose([3; 32]);
    assert_eq!(call.clone().with(vec![]).contents(), Some(&[][..]));
    assert_eq!(call.clone().with(vec![1]).without_contents(), call);
    assert_eq!(Call::Timer(1).with(vec![1]), Call::Timer(1));
}
