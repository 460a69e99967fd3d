//! The call that names the decisive timeout, on library and oracle. Other seeds with `COMPARE_SEED=S`, more calls with
//! `COMPARE_DECISIVE=N`.

use compare::{compare_decisive, replay_decisive};
use oracle::{wire, Faults, Protocol, Refusal, Settings, View};
use streams::{Decided, DecisiveAnswer, DecisiveCall, Outcome};

fn number(variable: &str, otherwise: u64) -> u64 {
    std::env::var(variable).map_or(otherwise, |text| text.parse().expect("a number"))
}

/// Each answer and each outcome comes up, in all settings that are taken, and no other number is given.
#[test]
fn library_and_oracle_name_the_same() {
    let calls = number("COMPARE_DECISIVE", 120_000);
    let compared = compare_decisive(number("COMPARE_SEED", 1), calls, DecisiveCall::make);
    let coverage = compared.unwrap_or_else(|mismatch| panic!("{mismatch}"));
    println!("{coverage}");
    assert!(coverage.calls() >= calls);
    assert_eq!(coverage.answers(), [0, 1, 3, 4, 5, 6, 7, 8, 9]);
    for outcome in [Outcome::Exact, Outcome::Settled, Outcome::First, Outcome::Later] {
        assert!(coverage.of_outcome(outcome) > 1_000, "{outcome:?}: {}", coverage.of_outcome(outcome));
    }
    for decided in [Decided::CarriedBlock, Decided::CarriedWeak, Decided::Built] {
        assert!(coverage.of_decided(decided) > 1_000, "{decided:?}: {}", coverage.of_decided(decided));
    }
    assert_eq!(coverage.settings(), Settings::all().len());
}

// ---------------------------------------------------------------- wrong answers

/// The settings and the timeouts of a good certificate.
fn good(call: &DecisiveCall) -> Option<(Protocol, wire::Timeouts<'_>)> {
    let [f, c, k, _] = call.settings;
    call.make().ok()?;
    Some((Protocol::new(Settings::new(f, c, k)?, Faults::NONE), wire::Timeouts::of(&call.record)))
}

/// The certificate without the timeout at this place, as a record.
fn without(record: &[u8], place: usize) -> Vec<u8> {
    let at = wire::TIMEOUT_CERTIFICATE + wire::TIMEOUT * place;
    [&record[..at], &record[at + wire::TIMEOUT..]].concat()
}

/// The senders without whose timeout something about the safe certificate changes.
fn senders<T: PartialEq>(call: &DecisiveCall, about: impl Fn(&Protocol, wire::Timeouts<'_>) -> T) -> Vec<u16> {
    let Some((protocol, timeouts)) = good(call) else { return Vec::new() };
    let whole = about(&protocol, timeouts);
    let changes = |place| about(&protocol, wire::Timeouts::of(&without(&call.record, place))) != whole;
    timeouts.senders().enumerate().filter(|(place, _)| changes(*place)).map(|(_, sender)| sender).collect()
}

fn by_name(call: &DecisiveCall) -> Vec<u16> {
    senders(call, |protocol, timeouts| protocol.safe_certificate(timeouts).name)
}

/// Whether a timeout can be spared.
fn has_more_than_enough(call: &DecisiveCall) -> bool {
    good(call).is_some_and(|(protocol, timeouts)| timeouts.count() > protocol.quorums.timeout as usize)
}

/// What a reading of 02 answers.
type Reading = fn(&DecisiveCall) -> DecisiveAnswer;

/// Wrong ones.
const WRONG: [(&str, Reading); 8] = [
    ("the highest sender", |call| call.make().map(|named| named.and_then(|_| by_name(call).last().copied()))),
    ("also with exactly enough timeouts", |call| call.make().map(|_| by_name(call).first().copied())),
    ("another safe certificate, not another name", |call| {
        let changed = senders(call, |protocol, timeouts| protocol.safe_certificate(timeouts));
        call.make().map(|_| changed.first().copied().filter(|_| has_more_than_enough(call)))
    }),
    ("carried certificates alone", |call| {
        let faults = Faults { high_votes_left_out: true, ..Faults::NONE };
        let changed = senders(call, |protocol, timeouts| {
            Protocol::new(protocol.settings, faults).safe_certificate(timeouts).name
        });
        call.make().map(|_| changed.first().copied().filter(|_| has_more_than_enough(call)))
    }),
    ("the place, not the sender", |call| {
        let place = |named: u16| wire::Timeouts::of(&call.record).senders().position(|sender| sender == named);
        call.make().map(|named| named.and_then(place).map(|place| place as u16))
    }),
    ("the length of another kind", |call| match call.make() {
        Err(Refusal::Kind) => Err(wire::shape(&call.record, call.settings[3] as u32).err().unwrap_or(Refusal::Kind)),
        answer => answer,
    }),
    ("view 0 by 9", |call| {
        call.make().map_err(|refusal| match refusal {
            Refusal::ViewBelow => Refusal::Certificate,
            other => other,
        })
    }),
    ("the last view refused", |call| match call.make() {
        Ok(_) if wire::u64_at(&call.record, 8) == View::MAX.0 - 1 => Err(Refusal::ViewAbove),
        answer => answer,
    }),
];

/// Each is noticed, and what is printed replays it.
#[test]
fn wrong_answers_are_noticed() {
    for (what, wrong) in WRONG {
        let mismatch = compare_decisive(1, 2_000, wrong).expect_err(what);
        let printed = mismatch.to_string();
        let again = replay_decisive(&printed, wrong).expect("a line that replays").expect("the difference again");
        assert_eq!(again.to_string(), printed, "{what}");
        assert_eq!(replay_decisive(&printed, DecisiveCall::make), Ok(None), "{what}");
    }
    for line in ["", "decisive 1 1 0", "decisive 1 1 0 6 0", "decisive 1 1 0 6 00 00", "opened 1"] {
        assert!(replay_decisive(line, DecisiveCall::make).is_err(), "{line}");
    }
}
