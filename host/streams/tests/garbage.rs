//! Replicas in garbage states: rules in phases are 01's loop, and no call traps.

use oracle::{literal, Faults, Replica};
use streams::{garbage, Opening, Random, Stream};

/// The most that rules write: A 4·112, B 4·3,608, C 8·104, D 128·56.
const RULES_WRITE: usize = 4 * 112 + 4 * 3608 + 8 * 104 + 128 * 56;
/// The longest event writes a proposal and a vote.
const EVENT_WRITES: usize = 88 + 3608 + 48;

#[test]
fn phases_are_the_literal_loop() {
    let mut random = Random::new(1);
    let mut ran = literal::Ran::default();
    for seed in 0..20_000 {
        let start = garbage(Opening::seeded_led(seed), &mut random);
        compare(with_faults(start, &mut random), &mut ran);
    }
    assert!(ran.iter().all(|&times| times > 4_000), "every rule ran often: {ran:?}");
}

/// The same state in a replica that makes some errors, for a third of them.
fn with_faults(replica: Replica, random: &mut Random) -> Replica {
    let mut faults = Faults::NONE;
    for name in Faults::NAMES {
        if random.chance(4) {
            faults.set(name);
        }
    }
    replica.with_faults(faults)
}

fn compare(start: Replica, ran: &mut literal::Ran) {
    let (mut by_phases, mut by_loop) = (start.clone(), start);
    let (mut phases_out, mut loop_out) = (Vec::new(), Vec::new());
    by_phases.settle(&mut phases_out);
    literal::settle(&mut by_loop, &mut loop_out, ran);
    assert!(by_phases == by_loop && phases_out == loop_out);
    assert!(phases_out.len() <= RULES_WRITE);
    by_phases.settle(&mut phases_out);
    assert!(by_phases == by_loop && phases_out == loop_out, "afterwards no rule applies");
}

#[test]
fn no_call_traps() {
    let mut random = Random::new(2);
    let mut accepted = 0;
    let mut out = Vec::new();
    for seed in 0..3_000 {
        let mut replica = garbage(Opening::seeded_led(seed), &mut random);
        assert!(replica.is_sound());
        let mut stream = Stream::new(seed).with_contents();
        for _ in 0..20 {
            let call = stream.next(&replica);
            let before = replica.clone();
            out.clear();
            match call.make(&mut replica, &mut out) {
                Ok(written) => {
                    accepted += 1;
                    assert_eq!(written, out.len());
                    assert!(written <= EVENT_WRITES + RULES_WRITE);
                }
                Err(_) => assert!(replica == before && out.is_empty()),
            }
            assert!(replica.is_sound());
        }
    }
    assert!(accepted > 20_000, "{accepted} calls accepted");
}
